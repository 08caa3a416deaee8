# The rows of a table that shows tasks at two moments, for tables.awk and examples/desk/table.awk, which are read behind this.
# The first file is day.txt: the tasks' names are the comments at its slot lines.
BEGIN {
    split("live,done,ran off,label,spare,clearance", kinds, ",")
}

FILENAME == ARGV[1] {
    if ($1 == "slot") {
        name[$2] = $0
        sub(/.*# */, "", name[$2])
    }
    next
}

# What a line of a sheet says of its task, with the kind in words.
function task_fields() {
    return sprintf("%-9s %5s %5s %2s %4s", kinds[$2], $3, $4, $5, $6)
}

function or_unused(text) {
    return text == "" ? "unused" : text
}

function print_row(slot, task_name, before, after) {
    printf "  %4s %-15s  %-29s   %s\n", slot, task_name, or_unused(before), or_unused(after)
}

# The headings, and a row for each slot S that is used: task[before, S] and task[after, S] have what is said of its task.
function print_rows(before_heading, after_heading, before, after,    slot, fields) {
    fields = "kind      label spare pc mail"
    print_row("", "", before_heading, after_heading)
    print_row("slot", "task", fields, fields)
    for (slot = 0; slot < 16; slot++)
        if ((before, slot) in task || (after, slot) in task)
            print_row(slot, (slot in name) ? name[slot] : "(sandbox)", task[before, slot], task[after, slot])
}
