# Images for tests/host/run, tests/loop/run and tests/desk/run, which source this file: the scope document's B with any field
# changed, in either version, and the longest images.

# Writes the bytes that hexadecimal digits name.
hex() { # DIGITS...
    octal=$(awk -v digits="$*" '
        function value(i) { return index("0123456789abcdef", substr(digits, i, 1)) - 1 }
        BEGIN {
            gsub(/ /, "", digits)
            for (i = 1; i < length(digits); i += 2) printf "\\%03o", 16 * value(i) + value(i + 1)
        }')
    # shellcheck disable=SC2059
    printf "$octal"
}

# The digits of so many bytes 0.
zeros() { printf "%0$((2 * $1))d" 0; }

# Writes B, with these fields in the place of its own. Fields are in hexadecimal.
image() ( # [FIELD=DIGITS...]
    version=01 program_length=0010 program='08010002 00000000 09030400 00000000' turn_slot=00
    length_0=0025 kind_0=01 label_0=00 clearance_0='' spare_0=00 place_0=0000
    length_5=0025 clearance_5='' mail_5='' unused_6_to_15=$(zeros 20) tail=''
    for field; do eval "${field%%=*}=\${field#*=}"; done
    hex "$version $program_length $program $turn_slot" \
        "$length_0 $kind_0 $label_0 $clearance_0 $spare_0 $place_0 00000000 00000005 000002bc $(zeros 20)" \
        "$(zeros 8) $length_5 01 00 $clearance_5 00 0002 $(zeros 32) $mail_5 $unused_6_to_15 $tail"
)

# The same in version 2, with clearances 15.
image_2() { image version=02 length_0=0026 clearance_0=0f length_5=0026 clearance_5=0f "$@"; }

# Writes the longest image of a version: 256 instructions, all end, and sixteen live tasks, each with four messages of each
# label; in version 2 with clearance 15.
longest_image() { # VERSION
    task="01a5 01 $(zeros 36)"
    [ "$1" -eq 1 ] || task="01a6 01 00 0f $(zeros 35)"
    mail=$(awk 'BEGIN { for (i = 0; i < 64; i++) printf "0%x0000000000", i % 16 }')
    slots=$(awk -v task="$task $mail" 'BEGIN { for (i = 0; i < 16; i++) printf "%s", task }')
    hex "0$1 0400 $(zeros 1024) 00 $slots"
}
