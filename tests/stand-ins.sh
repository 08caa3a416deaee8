# For test scripts, which source this file: a repository in $work/repository with the Makefile, .ci/run and those tools that
# are tried, and stand-ins for all else that the Makefile calls. Each is a step that is written to the file `steps` and that
# fails if the file `failing` names it. The commands rt and cargo are in $work/bin.

repository=$work/repository
bin=$work/bin
# The tools that are no stand-ins.
tried='tools/check-kit tools/progress tools/scratch tools/tested tools/beside'

program() { # FILE: what standard input has
    mkdir -p "$(dirname "$1")"
    cat >"$1"
    chmod +x "$1"
}

mkdir -p "$repository/tools" "$repository/.ci" "$repository/include"
for file in Makefile .ci/run KIT VERSION rithennaw.pc.in include/rithennaw.h $tried; do
    cp "$root/$file" "$repository/$file"
done
printf '%s:\n' 'rithennaw staticlib' slotsheet lookprobe >"$repository/crates.txt"
for crate in rithennaw slotsheet lookprobe; do
    mkdir -p "$repository/crates/$crate/src"
    echo 'fn code() {}' >"$repository/crates/$crate/src/lib.rt"
    # what the stand-in for a program prints is what it reads
    echo input | tee "$repository/crates/$crate/stdin" >"$repository/crates/$crate/stdout"
done
: >"$repository/failing"
program "$repository/step" <<'END_OF_PROGRAM'
#!/bin/sh
echo "$*" >>steps
! grep -qxF -e "$*" failing || { echo "$*: failed"; exit 1; }
END_OF_PROGRAM
for name in $(grep -oE '(tools|tests|examples)/[a-z/-]+' "$root/Makefile" | sort -u); do
    case " $tried " in *" $name "*) continue ;; esac
    printf '#!/bin/sh\nexec ./step %s "$@"\n' "$name" | program "$repository/$name"
done

# rt keeps in `environment` the variables that it is given, and fails if there is standard input, but for a program. It obeys
# RT_ALLOW_C, as the kit's does, and its ci sets each folder out/ aside and puts it back. `failing` may say `bad edits` too.
program "$bin/rt" <<'END_OF_PROGRAM'
#!/bin/sh
[ -z "${RT_ALLOW_C:-}" ] || { echo '999 passed, 0 failed'; exit 0; }
crate=${PWD##*/}
cd "$(dirname "$0")/../repository"
case $1 in
version) exec cat version ;;
lib | run) set -- "$1" "$crate" ;;
ci) for out in crates/*/out; do [ ! -d "$out" ] || { mv "$out" aside && mv aside "$out"; }; done ;;
esac
env >environment
[ "$1" = run ] || ! read -r line || { echo 'rt: there is standard input'; exit 1; }
./step rt "$@" || { [ "$1" != ci ] || echo '7 passed, 1 failed'; exit 1; }
out=crates/$crate/out
case $1 in
lib) mkdir -p "$out" && echo archive >"$out/lib$crate.a" ;;
run) mkdir -p "$out" && echo "$crate" >"$out/$crate" && cat ;;
ci)
    bad=', 1 bad'
    grep -qxF 'bad edits' failing || bad=''
    echo "rt: ok; handles allowed: none; must-fail edits: 5 refused$bad; every proof and must-fail edit was done in this run"
    echo '8 passed, 0 failed'
    ;;
esac
END_OF_PROGRAM
cp "$repository/KIT" "$repository/version"
program "$bin/cargo" <<'END_OF_PROGRAM'
#!/bin/sh
exec ./step cargo "$3"
END_OF_PROGRAM

# make as a user calls it, whatever this script was called with.
plain_make() { # WORDS...
    env -i PATH="$PATH" HOME="$work" make --no-print-directory "$@"
}
