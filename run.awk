# Reads the answers of a script on standard input and shows each beside its call, for `./run`.
BEGIN {
    meaning[1] = "the local shard is none"; meaning[2] = "a span is 0 or over 2^40"; meaning[3] = "a time is over 2^48 - 1"
    meaning[4] = "a shard is 0 or over 2^33 - 1"; meaning[5] = "the words or a code are not well formed"
    meaning[6] = "too few free entries"; meaning[7] = "eight absences stand already"; meaning[8] = "32 departures stand already"
    meaning[9] = "the lent list is too short"; meaning[10] = "an item is of an unknown kind"; meaning[11] = "the bundle's number, kinds and lengths do not make up its words"
    meaning[12] = "the words have not the form of a snapshot"; meaning[13] = "the words are no ledger's snapshot"
    meaning[14] = "32 other shards have a count already"; meaning[15] = "the marks make up no tree"; meaning[16] = "the tree is too large or too deep"
    # how many numbers each call takes, -1 for any, -2 for one and any behind it
    takes("new 4 restore -1 snapshot 0 register_committed -1 record_absence 3 certify 2 record_abandonment -1 settled 2 returned 2 closes 0 fated 1 release_resolved -1")
    takes("forget 1 record_terminal 4 stamp_terminal 2 prune 1 bundle -1 questions 0 open_at 6 answers 7 past_deadline 1 issuers_of 1 claimants 2 counterparts 2")
    takes("unstamped_departures 0 reach 1 abandonment_answers 1 is_covered 1 departed 1 executed 1 reaches_beyond 1 issued_by 2 local 0 rebuilt 0 rebuilt_by_shard 0 dump 0 repeat 1")
    takes("leaf_for_route -2 leaves -1 counterparts_by_tree -2")
    split("whole leg core remainder", parts, " ")
    while ((getline line < script) > 0) {
        if (line ~ /^#/ || line == "") { print line; continue }
        print "  " line
        if (line ~ /^repeat / && reason(line) == "") { waiting = 1; continue }
        if ((getline answer) <= 0) { print "    -> nothing: the script stopped before this line"; exit 1 }
        if (answer ~ /^\?/) {
            why = reason(line)
            print "    -> line " substr(answer, 3) " is no call" (why == "" ? "" : ": " why) "; the rest was not run"
            exit 1
        }
        waiting = 0
        n = split(answer, word, " ")
        if (line == "dump") dump()
        else print "    -> " answer (word[1] in meaning ? "   (refused: " meaning[word[1]] ")" : "")
    }
}

function takes(table,    t, k, i) {
    k = split(table, t, " ")
    for (i = 1; i < k; i += 2) count[t[i]] = t[i + 1]
}

# why a line is no call, nothing where it is one
function reason(line,    w, k, i, many) {
    if (line ~ /\r/) return "it has a carriage return"
    if (line ~ /\t/) return "it has a tab; numbers stand one space apart"
    if (line ~ /^ /) return "it begins with a space"
    if (line ~ / $/) return "it ends with a space"
    if (line ~ /  /) return "it has two spaces where one belongs"
    k = split(line, w, " ")
    if (!(w[1] in count)) return "there is no call named '" w[1] "'"
    if (w[1] == "repeat" && waiting) return "a repeat may not follow another"
    many = k - 1
    for (i = 2; i <= k; i++) {
        if (w[i] == "lent") {
            if (w[1] == "repeat") return "a repeat is lent no list"
            if (i != k - 1) return "lent takes one number and comes last"
            many = i - 2
            continue
        }
        if (w[i] !~ /^[0-9]+$/) return "'" w[i] "' is no number"
        if (large(w[i], "18446744073709551615")) return w[i] " is over 2^64 - 1"
    }
    if (many < k - 1 && large(w[k], "8192")) return "a list has at most 8,192 words"
    if (many > 8192) return "a line has at most 8,192 numbers"
    if (count[w[1]] >= 0 && many != count[w[1]]) return w[1] " takes " count[w[1]] (count[w[1]] == 1 ? " number" : " numbers") ", and here are " many
    if (count[w[1]] == -2 && many == 0) return w[1] " takes a number ahead of its marks, and here is none"
    if (w[1] == "repeat" && w[2] ~ /^0+$/) return "a repeat is from 1"
    return ""
}

# numbers of any length, as texts
function large(n, limit) {
    sub(/^0+/, "", n)
    return length(n) > length(limit) || (length(n) == length(limit) && ("x" n) > ("x" limit))
}

function next_word() { return word[++at] }

function row(many,    i, text) {
    for (i = 0; i < many; i++) text = text (i ? " " : "") next_word()
    return text == "" ? "none" : text
}

# a word behind each label; the labels are parted by |
function labelled(labels,    label, k, i, text) {
    k = split(labels, label, "|")
    for (i = 1; i <= k; i++) text = text (i > 1 ? ", " : "") label[i] " " next_word()
    return text
}

# local, V, C, L and the counts, how many entries, departures and pairs there are, then each of them in a row
function dump(    text, counts, entries, departures, pairs, i) {
    at = 1
    text = labelled("local|V|C|L")
    counts = next_word()
    for (i = 0; i < counts; i++) text = text "; rebuilt: " labelled("shard|count")
    print "    -> " text (counts ? "" : "; rebuilt none")
    entries = next_word()
    departures = next_word()
    pairs = next_word()
    for (i = 0; i < entries; i++) entry()
    for (i = 0; i < departures; i++) departure()
    for (i = 0; i < pairs; i++) print "       index: " labelled("record|transaction")
    if (entries + departures + pairs == 0) print "       nothing is held"
}

function entry(    r, c, e, i, text, sizes, many) {
    r = next_word()
    c = next_word()
    e = next_word()
    text = labelled("transaction|at|end|anchor|charge")
    next_word() # decomposed: the part says it
    text = text "; routes " row(r)
    text = text "; core " row(c)
    for (i = 0; i < e; i++) id[i] = next_word()
    for (i = 0; i < e; i++) from[i] = next_word()
    for (i = 0; i < e; i++) kind[i] = next_word()
    for (i = 0; i < e; i++) sizes[i] = next_word()
    for (i = 0; i < e; i++) text = text "; edge " id[i] " from " from[i] (kind[i] == 1 ? ", owed," : "") " to " row(sizes[i])
    text = text "; " parts[next_word() + 1]
    text = text ", " labelled("certificate|named by|returned")
    many = next_word()
    for (i = 0; i < many; i++) text = text "; absent: " labelled("shard|key")
    many = next_word()
    print "       " text "; marks " row(many)
}

function departure(    text, stamped, until) {
    text = labelled("departure: shard|cut")
    stamped = next_word()
    until = next_word()
    print "       " text ", " (stamped ? "readable until " until : "not stamped")
}
