//! Bundles of files and include paths (document 02, #101).

use super::Bytes;

/// A bundled file's name and bytes.
pub type File<'a> = (&'a [u8], &'a [u8]);

fn take<'a>(bundle: &mut &'a [u8], length: usize) -> Option<&'a [u8]> {
    let taken = bundle.get(..length)?;
    *bundle = &bundle[length..];
    Some(taken)
}

/// A little-endian number of so many bytes.
fn count(bundle: &mut &[u8], bytes: usize) -> Option<usize> {
    let digits = take(bundle, bytes)?.iter().rev();
    Some(digits.fold(0, |number, &digit| 256 * number + usize::from(digit)))
}

/// The files of a bundle; none where it has no file, is cut short, or goes on
/// behind the last.
pub fn unpack(mut bundle: &[u8]) -> Option<Vec<File<'_>>> {
    let mut files = Vec::new();
    for _ in 0..count(&mut bundle, 2)? {
        let name = count(&mut bundle, 2)?;
        let name = take(&mut bundle, name)?;
        let bytes = count(&mut bundle, 4)?;
        files.push((name, take(&mut bundle, bytes)?));
    }
    (bundle.is_empty() && !files.is_empty()).then_some(files)
}

/// The bundle of these files.
pub fn pack<N: AsRef<[u8]>, B: AsRef<[u8]>>(files: &[(N, B)]) -> Bytes {
    let mut bundle = Bytes::from((files.len() as u16).to_le_bytes());
    for (name, bytes) in files {
        let (name, bytes) = (name.as_ref(), bytes.as_ref());
        bundle.extend((name.len() as u16).to_le_bytes());
        bundle.extend(name);
        bundle.extend((bytes.len() as u32).to_le_bytes());
        bundle.extend(bytes);
    }
    bundle
}

/// An include path with its percent items written out; none where one is bad.
pub fn written_path(path: &[u8], [home, extra, system]: [&[u8]; 3]) -> Option<Bytes> {
    let mut parts = path.split(|&b| b == b'%');
    let mut written = parts.next()?.to_vec();
    while let Some(part) = parts.next() {
        match part.split_first() {
            Some((b'H', plain)) => written.extend([home, plain].concat()),
            Some((b'E', plain)) => written.extend([extra, plain].concat()),
            Some((b'S', plain)) => written.extend([system, plain].concat()),
            Some(_) => return None,
            // Nothing between two percent signs: they are one.
            None => {
                written.push(b'%');
                written.extend(parts.next()?);
            }
        }
    }
    Some(written)
}
