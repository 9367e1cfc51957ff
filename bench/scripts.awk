# Writes a script: CALLS calls of KIND for NODES nodes and LANES lanes (1 of each where none is given). The same numbers give the same script.
#   pair   mkdir and stat at depth 3, a quarter of the calls on missing names
#   mixed  the operations that a node carries out alone, by two callers
#   moved  the same, mostly on files that are there, but for a tenth of the calls: chmod, rmdir and rename of directories
#   placed the same as mixed, but every hundredth call places a name, by any rule
#   wide   files of one directory: created, looked up and removed, at most 3,000 of them at once
#   large  one directory of 3,000 files, which all further calls list
#   small  one directory of 9 files, which all further calls list. A script's lists times its bytes are at most 134,217,728: about 3,000 lists
function draw(below) { state = (state * 69069 + 12345) % 4294967296; return int(state / 65536) % below }
function name(k) { return substr("abcdefghijklmnopqrstuvwxyz", k + 1, 1) }
function path(missing) { return "/" name(draw(8)) "/" name(draw(8)) "/" (missing ? "none" draw(1000) : name(draw(26)) draw(40)) }
function line(text) { print 1 + done % lanes " " text; done++ }
function pair(missing) { if (missing || draw(2)) line("0:0 stat " path(missing)); else line("0:0 mkdir " path(0) " 755") }
function mixed(missing,   k, who) {
    k = draw(6); who = draw(3) == 0 ? "1000:100" : "0:0"
    if (k == 0) line(who " mkdir " path(0) " 755")
    if (k == 1) line(who " create " path(0) " 644")
    if (k == 2) line(who " stat " path(missing))
    if (k == 3) line(who " access " path(missing) " " draw(8))
    if (k == 4) line(who " truncate " path(missing) " " draw(65536))
    if (k == 5) line(who " unlink " path(missing))
}
function there(missing,   k, who, at, file) {
    k = draw(6); who = draw(3) == 0 ? "1000:100" : "0:0"
    if (k == 0) { line(who " mkdir " path(0) " 755"); return }
    if (k == 1 || !files) { files++; kept[files] = path(0); line(who " create " kept[files] " 666"); return }
    at = 1 + draw(files); file = missing ? path(1) : kept[at]
    if (k == 2) line(who " stat " file)
    if (k == 3) line(who " access " file " " draw(8))
    if (k == 4) line(who " truncate " file " " draw(65536))
    if (k == 5) { line(who " unlink " file); if (!missing) kept[at] = kept[files--] }
}
function moved(missing,   k, to) {
    if (own == "") { own = path(0); line("0:0 mkdir " own " 755"); return }
    if (draw(10)) { there(missing); return }
    k = draw(4)
    if (k == 0) line("0:0 chmod /" name(draw(8)) "/" name(draw(8)) " 777")
    if (k == 1) { line("0:0 rmdir " own); own = "" }
    if (k > 1) { to = path(0); line("0:0 rename " own " " to); own = to }
}
function placed(missing,   k) {
    if (done % 100) { mixed(missing); return }
    k = draw(3)
    line("0:0 place " name(draw(26)) draw(40) " " (k == 0 ? "hash" : k == 1 ? "parent" : "node:" draw(nodes)))
}
function wide(missing,   file) {
    file = "/a/b/file" draw(3000)
    if (done < 3200 || missing) line("0:0 create " file " 644")
    else if (draw(4) == 0) line("0:0 unlink " file)
    else line("0:0 stat " file)
}
function listed(most) { if (files < most) line("0:0 create /i/file" ++files " 644"); else line("0:0 list /i") }
BEGIN {
    state = 1; done = 0
    if (!nodes) nodes = 1
    if (!lanes) lanes = 1
    print "falcon-script 1"; print "nodes " nodes; print "lanes " lanes
    for (i = 0; i < 8; i++) line("0:0 mkdir /" name(i) " 777")
    for (i = 0; i < 8; i++) for (j = 0; j < 8; j++) line("0:0 mkdir /" name(i) "/" name(j) " 777")
    if (kind == "large" || kind == "small") line("0:0 mkdir /i 777")
    while (done < calls) {
        missing = draw(4) == 0
        if (kind == "pair") pair(missing)
        if (kind == "mixed") mixed(missing)
        if (kind == "moved") moved(missing)
        if (kind == "placed") placed(missing)
        if (kind == "wide") wide(missing)
        if (kind == "large") listed(3000)
        if (kind == "small") listed(9)
    }
}
