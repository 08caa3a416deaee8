# Lays out what the host prints: a table for each observer, before the day beside after it, and what it can see; then what
# each observer sees of the journal's first posting.
# Usage: awk -f rows.awk -f tables.awk day.txt journal SHEETS.
BEGIN {
    title[0] = "The public (observer 0)"
    said[0] = "Sees the task with label 0 alone. The message in its mailbox has label 8 and is left out."
    title[1] = "The assay library, owner 0 (observer 1)"
    said[1] = "Sees that its task has received a figure and sent one. Who received that, and what became of it, is hidden."
    title[2] = "The additive maker, owner 1 (observer 2)"
    said[2] = "Sees its own task in the same way, and nothing of the assay library's.\n" \
              "Its helper was stopped by its clearance where it reached for the desk's position. That message is hidden: mail is 0."
    title[4] = "The refinery, owner 2 (observer 4)"
    said[4] = "The blend rose to label 7 to receive the others' figures: now it is hidden, even from its owner.\n" \
              "The planner stayed at label 4 and shows. What floods its mailbox is hidden: mail is 0."
    title[7] = "Owners 0, 1 and 2 together (observer 7)"
    said[7] = "An observer who may see all three owners' figures sees the blend and its sandbox, and of the desk only the price."
    title[8] = "The trading desk, owner 3 (observer 8)"
    said[8] = "Sees its task stopped by a label where it tried to publish the position. No other owner does.\n" \
              "The planner's mailbox is hidden: the desk never learns which of its messages were dropped."
    title[15] = "The host (observer 15)"
    said[15] = "Sees everything, also the four messages that the flood left in slot 2, and the one that slot 6 could not receive."
}

FILENAME == ARGV[2] {
    last++
    if ($1 == "post" && !post_line) {
        post_line = last
        post_slot = $2
        post_label = $3
        post_value = $4
    }
    if (!post_line) turns_before_post += $NF
    next
}
$1 == "line" { line = $2 }
$1 == "observer" { observer = $2 }
$1 == "observer" && line == 0 { observers[++observer_count] = observer }
/^[0-9]/ {
    task[observer, line, $1] = task_fields()
    mail[observer, line, $1] = kinds[$2] ", mail " $6
}

function print_table(observer) {
    printf "\n%s\n%s\n", title[observer], said[observer]
    print_rows("before", "after", observer SUBSEP 0, observer SUBSEP last)
}

function print_post_row(observer_title, before, after) {
    printf "  %-40s  %-12s  %s\n", observer_title, or_unused(before), or_unused(after)
}

# Before the line with the posting, and after it: postings come with turns, since a line of their own would show them to all.
function print_post(    i, observer) {
    print "\nThe lab's result"
    printf "After %d turns the host posts %d with label %d to slot %d, the task of the %s.\n", turns_before_post, post_value,
        post_label, post_slot, name[post_slot]
    print "An observer who may see label " post_label " sees that a message has come. For the others nothing changes there."
    print_post_row("slot " post_slot " as seen by", "before", "after")
    for (i = 1; i <= observer_count; i++) {
        observer = observers[i]
        print_post_row(title[observer], mail[observer, post_line - 1, post_slot], mail[observer, post_line, post_slot])
    }
}

END {
    for (i = 1; i <= observer_count; i++) print_table(observers[i])
    if (post_line) print_post()
}
