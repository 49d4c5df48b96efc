# The plain machine: reads a script of commands that are within the grammar, and prints the replies that a store owes.
# at[queue, number] is a message's body; by[queue, number] is its transaction, empty without one, and move says how.

function missing(q) { return !(q in last) }

# Why no open transaction has this xid; empty without a transaction and where one has it
function shut(asked, x) {
    if (!asked) return ""
    if (!(x in phase)) return "xid"
    return phase[x] == "prepared" ? "phase" : ""
}

# What the end of x leaves, in all queues: with a commit what came stays and what went is gone, else the other way round
function finish(x, commit,    key, stays) {
    for (key in at)
        if (by[key] == x) {
            stays = (move[key] == "coming") == commit
            by[key] = ""
            if (!stays) delete at[key]
        }
    delete phase[x]
    return "ok"
}

function held(q,    n, count) {
    count = 0
    for (n = 1; n <= last[q]; n++) if ((q, n) in at) count++
    return count
}

function put(q, body, asked, x,    why, n) {
    if (missing(q)) return "refused queue"
    why = shut(asked, x)
    if (why != "") return "refused " why
    n = ++last[q]
    at[q, n] = body
    by[q, n] = asked ? x : ""
    move[q, n] = "coming"
    return "ok " n
}

function take(q, n, asked, x,    why) {
    if (missing(q)) return "refused queue"
    why = shut(asked, x)
    if (why != "") return "refused " why
    if (!((q, n) in at)) return "refused message"
    if (by[q, n] != "") return "refused locked"
    if (asked) { by[q, n] = x; move[q, n] = "going" } else delete at[q, n]
    return "ok"
}

function list(q,    n, text) {
    if (missing(q)) return "refused queue"
    text = "ok " held(q)
    for (n = 1; n <= last[q]; n++)
        if ((q, n) in at)
            text = text "\n" n " " (by[q, n] == "" ? "ready" : move[q, n] " " by[q, n]) " " at[q, n]
    return text
}

function doubt(    y, count, i, k, text) {
    count = 0
    for (y in phase) if (phase[y] == "prepared") doubts[++count] = y
    for (i = 1; i <= count; i++)
        for (k = i + 1; k <= count; k++)
            if (doubts[k] "" < doubts[i] "") { y = doubts[i]; doubts[i] = doubts[k]; doubts[k] = y }
    text = "ok " count
    for (i = 1; i <= count; i++) text = text "\n" doubts[i]
    return text
}

function queue(q) {
    if (!missing(q)) return "refused exists"
    last[q] = 0
    return "ok"
}

function drop(q) {
    if (missing(q)) return "refused queue"
    if (held(q) > 0) return "refused busy"
    delete last[q]
    return "ok"
}

function begin(x) {
    if (x in phase) return "refused exists"
    phase[x] = "open"
    return "ok"
}

function prepare(x,    why) {
    why = shut(1, x)
    if (why != "") return "refused " why
    phase[x] = "prepared"
    return "ok"
}

{ x = tolower($NF) }
$1 == "queue" { print queue($2) }
$1 == "drop" { print drop($2) }
$1 == "put" { print put($2, $3, $4 == "in", x) }
$1 == "take" { print take($2, $3, $4 == "in", x) }
$1 == "list" { print list($2) }
$1 == "begin" { print begin(x) }
$1 == "prepare" { print prepare(x) }
$1 == "commit" { print (x in phase) ? finish(x, 1) : "refused xid" }
$1 == "abort" { print (x in phase) ? finish(x, 0) : "refused xid" }
$1 == "doubt" { print doubt() }
