# What a log of `rt run` tells so far, for bin/progress. It reads, each announced by part=NAME:
#   times    crate and seconds: how long each crate took once
#   crates   crates.txt, where a crate stands below those that it uses
#   plan     `asked NAME`, and `changed NAME` for each crate that is not built as its files stand
#   took     crate and seconds: how long each took in this run
#   log      what rt has said: a line 'rt: chose --jobs N for NAME' begins a crate, and ends the one before it
# The time left is that of the stored times, times what was measured over what was stored of the crates that are done.

function seconds_of(name) { return (name in seconds) ? seconds[name] : 20 }

# The crate that is asked for and what it uses are due where they have changed, or where one that they use is due.
function find_due(    i, k, n, used, name) {
    for (i = count; i >= 1; i--) {
        n = (crate[i] in wanted) ? split(uses[crate[i]], used, " ") : 0
        for (k = 1; k <= n; k++) wanted[used[k]]
    }
    for (i = 1; i <= count; i++) {
        name = crate[i]
        if (!(name in wanted)) continue
        n = split(uses[name], used, " ")
        for (k = 1; k <= n; k++) if (used[k] in due) due[name]
        if (name in changed) due[name]
    }
    found = 1
}

# Sets `left`, the seconds of all that is not done, `number`, which of those that are due is being proved, and `total`.
function find_left(    i, name, measured, stored) {
    measured = stored = 60
    left = total = 0
    number = 1
    for (i = 1; i <= count; i++) {
        name = crate[i]
        if (!(name in due)) continue
        total++
        if (!(name in done)) {
            left += seconds_of(name)
            continue
        }
        number++
        if (name in took) {
            measured += took[name]
            stored += seconds_of(name)
        }
    }
    if (number > total) number = total
    left *= measured / stored
    first = seconds_of(current) * measured / stored
}

function words_left() {
    if (left < 1) return ""
    if (left < 45) return "; less than a minute left"
    if (left < 90) return "; about a minute left"
    return "; about " int(left / 60 + 0.5) " minutes left"
}

# A crate is begun: the one before it is done, and so is what it uses.
function begin(name,    k, n, used) {
    if (current != "") done[current]
    n = split(uses[name], used, " ")
    for (k = 1; k <= n; k++) done[used[k]]
    current = name
    due[name]
    find_left()
    said = "proving " number " of " total ": " name
    if (waited == "") print said words_left()
}

part != "log" { sub(/#.*/, "") }
/^[ \t]*$/ { next }
part == "times" { seconds[$1] = $2; next }
part == "crates" {
    name = $1
    sub(/:$/, "", name)
    crate[++count] = name
    place[name] = count
    for (k = 2; k <= NF; k++) if ($k in place) uses[name] = uses[name] " " $k
    next
}
part == "plan" && $1 == "asked" { wanted[$2]; next }
part == "plan" { changed[$2]; next }
part == "took" { took[$1] = $2; next }

# From here on the log.
!found { find_due() }
/^rt: chose --jobs [0-9]+ for / && ($NF in place) { begin($NF) }

END {
    if (waited == "") exit
    if (!found) find_due()
    find_left()
    left -= waited < first ? waited : first
    if (said == "") said = "proving " total (total == 1 ? " crate" : " crates")
    print said words_left()
}
