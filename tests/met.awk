# What runs of calls have met: of each script and the answers to it beside it (SCRIPT.SUFFIX), a line `COUNT CALL OUTCOME` for each call and
# outcome, `COUNT STEP ok` for each kind of step that was accepted, with its links, `COUNT bound, PART` for each part of a bound that is not 0,
# `COUNT weight, a hard row broken`, `COUNT SEARCH impossible, WHERE` for searches that end at their root or far down, and
# `COUNT NAME: CALL OUTCOME` where a line `# meets NAME` stood before the call. A bound or search by groups is a call of its own; one right
# behind the same call under the other bound stands under the same NAME, and it is said where it comes to more.
function met(what) { count[what]++ }
function outcome(answer,   part) {
  split(answer, part, " ")
  if (part[1] == "refused") return "refused " part[2]
  if (part[1] ~ /^[0-9]+$/) return "ok"
  if (part[1] == "stopped" && part[2] == "none") return "stopped with none"
  return part[1] == "" ? "nothing" : part[1]
}
function step(named, words) {
  if (named == "1") return "merge"
  if (named == "2") return "shift"
  if (named == "3") return "chain, k = " (words - 4)
  return "fork, k = " (words - 6)
}
function parts(call, answer,   part) {
  split(answer, part, " ")
  if (part[1] > 0) met(call ", conceded")
  if (part[2] > 0) met(call ", lost")
  if (part[3] > 0) met(call ", foreseen")
  if (part[1] > 0 && part[2] > 0 && part[3] > 0) met(call ", all three")
}
function impossible(call, nodes) {
  if (nodes == 1) met(call " impossible, at the root")
  if (nodes > 20) met(call " impossible, after over 20 nodes")
  if (nodes > 1000) met(call " impossible, after over 1,000 nodes")
}
# The answer by groups, and the one right before it, to the same call under the other bound.
function beside(call, now, before,   part, other) {
  split(now, part, " ")
  split(before, other, " ")
  if (call == "bound by groups" && part[3] > other[3]) met("bound by groups, more foreseen")
  if (part[1] == "done" && other[1] == "done" && part[4] < other[4]) met("search by groups, fewer nodes")
  if (part[1] == "done" && other[1] == "stopped") met("search by groups, done where the other is stopped")
}
BEGIN {
  split("load wellformed decide rewrite back bound search weight read write readwcnf writewcnf answer", names, " ")
  for (i in names) is_call[names[i]] = 1
  for (i = 1; i < ARGC; i++) {
    answers = ARGV[i] "." suffix
    tag = last = ""
    while ((getline line < ARGV[i]) > 0) {
      head = substr(line, 1, 300)
      if (index(head, "# meets ") == 1) { tag = substr(head, 9); continue }
      words = split(head, word, " ")
      if (word[1] == "words") { getline answer < answers; continue }
      if (!(word[1] in is_call)) continue
      answer = ""
      getline answer < answers
      how = outcome(substr(answer, 1, 100))
      call = word[1]
      if ((call == "bound" || call == "search") && word[2] != "0") call = call " by groups"
      if (call == last " by groups") {
        beside(call, answer, before)
        if (tag == "") tag = last_tag
      }
      last = call
      last_tag = tag
      before = answer
      met(call " " how)
      if (word[1] == "rewrite" && how == "ok") met(step(word[2], words) " ok")
      if (word[1] == "bound" && how == "ok") parts(call, answer)
      if (word[1] == "weight" && answer ~ / broken /) met("weight, a hard row broken")
      if (how == "impossible") { split(answer, given, " "); impossible(call, given[4]) }
      if (tag != "") met(tag ": " call " " how)
      tag = ""
    }
    close(ARGV[i])
    close(answers)
  }
  for (what in count) print count[what] " " what
}
