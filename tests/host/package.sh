# The package for tests/host/run, which sources this file: installed below $prefix, with all of it compared. $flags are those
# that a program is built with.

package() { # MAKE'S WORDS...
    "${MAKE:-make}" -C "$root" --no-print-directory "$@" >"$work/make" 2>&1 || { cat "$work/make"; exit 1; }
}

# The files below a folder.
files() { (cd "$1" && find . ! -type d | sort); }
package_files='./bin/slotsheet
./include/rithennaw.h
./lib/librithennaw.a
./lib/pkgconfig/rithennaw.pc'

# A field of a pkg-config file, with the file's own variables filled in.
pc_field() { # FIELD FILE
    awk -v field="$1" '
        /^[a-z]+=/ { name = $0; sub(/=.*/, "", name); sub(/^[a-z]+=/, ""); value[name] = $0 }
        index($0, field ": ") == 1 { text = substr($0, length(field) + 3) }
        END {
            while (match(text, /\$\{[a-z]+\}/)) {
                name = substr(text, RSTART + 2, RLENGTH - 3)
                text = substr(text, 1, RSTART - 1) value[name] substr(text, RSTART + RLENGTH)
            }
            print text
        }' "$2"
}

prefix=$work/prefix
package install DESTDIR= PREFIX="$prefix"
same_text 'the files installed' "$(files "$prefix")" "$package_files"
same 'the header installed' "$prefix/include/rithennaw.h" "$root/include/rithennaw.h"
same 'the archive installed' "$prefix/lib/librithennaw.a" "$root/target/staticlib/librithennaw.a"
same 'the program installed' "$prefix/bin/slotsheet" "$root/target/bin/slotsheet"

# Not every machine has pkg-config, so the file is read here first. Where there is one, it reads the file again.
pc=$prefix/lib/pkgconfig/rithennaw.pc
should_flags="-I$prefix/include -L$prefix/lib -lrithennaw"
flags="$(pc_field Cflags "$pc") $(pc_field Libs "$pc")"
same_text 'the version in the pkg-config file' "$(pc_field Version "$pc")" "$(cat "$root/VERSION")"
same_text 'the flags in the pkg-config file' "$flags" "$should_flags"
if command -v pkg-config >"$work/found"; then
    flags=$(PKG_CONFIG_PATH=$prefix/lib/pkgconfig pkg-config --cflags --libs rithennaw)
    # some put a blank behind the last flag
    flags=${flags% }
fi
same_text 'the flags to build with' "$flags" "$should_flags"

# A staged install has its files below DESTDIR, which may have a blank, and names the prefix alone; uninstall leaves no file.
stage="$work/the stage"
package install DESTDIR="$stage" PREFIX=/opt/rithennaw
same_text 'the files of a staged install' "$(files "$stage/opt/rithennaw")" "$package_files"
same_text 'the flags of a staged install' "$(pc_field Libs "$stage/opt/rithennaw/lib/pkgconfig/rithennaw.pc")" \
    '-L/opt/rithennaw/lib -lrithennaw'
package uninstall DESTDIR="$stage" PREFIX=/opt/rithennaw
same_text 'the files after uninstall' "$(files "$stage")" ''

# A prefix of two words is refused, so that uninstall removes nothing that one of them names.
: >"$work/kept"
(package uninstall DESTDIR= PREFIX="$work/kept more") >"$work/refused" 2>&1 || echo refused >>"$work/refused"
same_text 'a prefix of two words' "$(tail -n 1 "$work/refused") $(ls "$work/kept")" "refused $work/kept"
