# Profiles from a list of models, layouts, variants and options (evdev.lst), as MODEL|LAYOUTS|VARIANTS|OPTIONS: every model, every layout, some with everything at
# once, and the special ones. The numbers come from a seed, the same with every awk.
BEGIN {
    seed = 20240229
}

$1 == "!" { part = $2; next }
NF == 0 { next }
part == "model" { models[nm++] = $1 }
part == "layout" && $1 != "custom" { layouts[nl++] = $1 } # custom is a name for a site's own file
part == "variant" { sub(/:$/, "", $2); variants[$2, count[$2]++] = $1 }
part == "option" && $1 ~ /:/ { options[no++] = $1 }

# A whole number from 0 to n - 1.
function some(n) {
    seed = (seed * 16807) % 2147483647
    return int(seed / 2147483647 * n)
}

# Of two layouts in three a variant, where there is one.
function variant(layout) {
    return count[layout] > 0 && some(3) > 0 ? variants[layout, some(count[layout])] : ""
}

function several(    n, i, l, ls, vs, os) {
    ls = vs = os = ""
    n = 1 + some(4)
    for (i = 0; i < n; i++) {
        l = layouts[some(nl)]
        ls = ls (i > 0 ? "," : "") l
        vs = vs (i > 0 ? "," : "") variant(l)
    }
    n = some(5)
    for (i = 0; i < n; i++)
        os = os (i > 0 ? "," : "") options[some(no)]
    print models[some(nm)] "|" ls "|" vs "|" os
}

END {
    for (i = 0; i < nm; i++)
        print models[i] "|us||"
    for (i = 0; i < nl; i++)
        print models[i % nm] "|" layouts[i] "||"
    for (i = 0; i < no; i += 4)
        print "pc105|us,de||" options[i] "," options[i + 1] "," options[i + 2] "," options[i + 3]
    for (i = 0; i < 300; i++)
        several()

    # Fields that are missing, empty or unknown.
    print "pc105|us,de|intl|"
    print "pc105|us,de,fr,gb|,nodeadkeys|grp:toggle"
    print "pc105|us,,de||grp:toggle"
    print "pc105|us,|intl,|"
    print "pc105|,us||"
    print "pc105|,|,|"
    print "nosuch|us,fr|,bepo|no:such,,ctrl:nocaps,"
    print "pc105|us||,,"
    print "*|us||$inetkbds,*"

    # Where libxkbcommon has defaults of its own.
    print "|us||"
    print "|de,fr|nodeadkeys,|compose:menu"
    print "|us,de,fr,gb||"
    print "pc105|||"
    print "pc105|||ctrl:nocaps"
    print "pc105||intl|"
    print "macbook78|||"
    print "|||"
    print "||intl|grp:toggle"
}
