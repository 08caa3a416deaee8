# Lays out two sheets, each below a line that heads it, as desk prints them: one beside the other, with the tasks' names.
# Usage: awk -f ../day/rows.awk -f table.awk day.txt SHEETS.
/^[0-9]/ { task[sheets, $1] = task_fields() }
/^[^0-9]/ && $1 != "slot" { heading[++sheets] = $0 }
END { print_rows(heading[1], heading[2], 1, 2) }
