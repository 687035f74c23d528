# Sourced by ./vsm and ./vsm-explain, which set `top`, the program's `name` and `crate`, and `help`, the file with what
# it prints for --help. Runs the program with the given arguments and standard streams. If it isn't proved and built
# from these sources (./prove does that), an unproved program is run in its place, and standard error says so after the
# compile, and later if it's a terminal. That one is compiled once, in some two minutes, and kept in the crate's out/
# as NAME-unproved until a source is changed or ./prove has run. RT names the command rt if it isn't on the PATH.
: "${top:?launch.sh is sourced by ./vsm and ./vsm-explain}"
# An exported SHELLOPTS may have it.
set +e
out=$top/crates/$crate/out
program=$out/$crate
unproved=$program-unproved
rt=${RT:-rt}

# One line, also of a path that has a line feed.
say() {
  echo "$name: ${1//[[:cntrl:]]/?}" >&2
}

refuse() {
  say "$1"
  exit 16
}

print_help() {
  cat "$help" 2>/dev/null || { say write; exit 8; }
  exit 0
}

# A link in the second folder to each file of the first that the second lacks.
link_rest() {
  local file
  for file in "$1"/*; do
    [ -e "$2/${file##*/}" ] || ln -s "$file" "$2/" || return 1
  done
}

# A script in the place of a tool of the kit; standard input is what it does.
put_tool() {
  { echo '#!/usr/bin/env bash'; cat; } >"$1" && chmod +x "$1"
}

# Lays out a folder in place of the kit's. rt try deletes the program that it compiled, so the linker also leaves it as
# `made`, once it's whole; and the compiler optimizes when it adds checks, which makes the program some 25 times as fast.
lay_out_kit() {
  local kit tools
  kit=$(dirname "$("$rt" doc)") && [ -f "$kit/bin/rtlib.py" ] || return 1
  tools=$room/kit/toolchain/bin
  mkdir -p "$room/kit/bin" "$tools" && cp "$kit/bin/rt" "$kit/bin/rtlib.py" "$room/kit/bin/" || return 1
  put_tool "$tools/clang" <<END
case " \$* " in *' -fsanitize=address '*) set -- "\$@" -O1;; esac
exec $(printf %q "$kit/toolchain/bin/clang") "\$@"
END
  put_tool "$tools/ld.lld" <<END
$(printf %q "$kit/toolchain/bin/ld.lld") "\$@" || exit
while [ "\$#" -gt 2 ] && [ "\$1" != -o ]; do shift; done
cp "\$2" $(printf %q "$room/part") && exec mv $(printf %q "$room/part") $(printf %q "$room/made")
END
  link_rest "$kit/toolchain/bin" "$tools" && link_rest "$kit/toolchain" "$room/kit/toolchain" &&
    link_rest "$kit/bin" "$room/kit/bin" && link_rest "$kit" "$room/kit"
}

# Reads all that rt prints, and says every half minute how long it has taken.
hear_out() {
  local line start=$SECONDS next=30 heard
  while :; do
    IFS= read -r -t 5 line <&3
    heard=$?
    said+=$line
    if [ "$heard" -eq 0 ]; then
      said+=$'\n'
    elif [ "$heard" -le 128 ]; then
      return
    fi
    if [ $((SECONDS - start)) -ge "$next" ]; then
      say "$next seconds so far"
      next=$((next + 30))
    fi
  done
}

# Ends what was started last, in a group of its own; a new process may lose a signal.
stop() {
  trap '' INT TERM HUP
  for _ in {1..50}; do
    kill -- "-$!" && sleep 0.1 || break
  done 2>/dev/null
  rm -rf "$room"
  refuse "stopped"
}

# Runs a function in the background, in a group of its own, and waits for it. In bash, a trap fails if its signal comes
# while a substitution is read; so a shell with a trap runs only this.
run_apart() {
  set -m
  "$@" &
  set +m
  wait "$!"
}

# Compiles the program without a proof. The sum kept with it is that of the sources when it began.
compile() {
  local sum why said=""
  sum=$("$top/prove" --program "$crate" --sum)
  mkdir -m 700 "$room" 2>/dev/null || refuse "no temporary folder can be made"
  lay_out_kit || { rm -rf "$room"; refuse "the folder of the kit can't be found: '$rt doc' has to print the path of a page in it"; }
  say "compiling $name without a proof, once: about 2 minutes on a free machine"
  exec 3< <(exec </dev/null 2>&1 8>&-; cd "$top/crates/$crate" && TMPDIR=$room exec "$room/kit/bin/rt" try --steps 1 -- --help)
  hear_out
  exec 3<&-
  # Only if rt says that the program ran to its end.
  if ! wait "$!" 2>/dev/null || ! [ -x "$room/made" ]; then
    why="no program was compiled; above is what the kit said"
    [ ! -e "$room/part" ] || why="the program can't be written in ${TMPDIR:-/tmp}: is the disk full?"
    rm -rf "$room"
    printf '%s' "$said" >&2
    refuse "$why"
  fi
  { cp "$room/made" "$unproved.new" && mv "$unproved.new" "$unproved"; } 2>/dev/null &&
    "$top/prove" --program "$crate" --made "$sum" "$unproved" ||
    { rm -rf "$room" "$unproved.new"; refuse "the compiled program can't be kept in $out: is the disk full?"; }
  rm -rf "$room"
}

compile_if_needed() {
  "$top/prove" --program "$crate" --check "$unproved" || compile
}

# One process compiles, and others wait for it.
compile_once() {
  command -v "$rt" >/dev/null || refuse "no program is built, and rt, the command of the Rattle kit that compiles one, isn't on the PATH: put its folder there, or name it by RT"
  { mkdir -p "$out" && exec 8>"$unproved.lock"; } 2>/dev/null ||
    refuse "no program is built, and none can be kept: $out can't be written"
  # It's named before it's made, so that `stop` removes it; TMPDIR may be relative, and rt runs in another folder.
  room=${TMPDIR:-/tmp}/$name-$$-$RANDOM
  [[ $room == /* ]] || room=$PWD/$room
  trap stop INT TERM HUP
  if ! flock -n 8; then
    say "another process compiles the program: this one waits for it"
    run_apart flock 8
  fi
  run_apart compile_if_needed || exit
  trap - INT TERM HUP
  exec 8>&-
  tell
}

# Said with the compile, and at each run at a terminal.
tell() {
  say "this run isn't proved: ./prove proves and builds $name, in about 45 minutes"
}

# Said at a terminal: options of the file's comments before its first statement that aren't given here, unless a listing
# or a check warns of them, and that assembler source is no script.
advise() {
  local file='' line word warns='' operation='^[^ ]* +(amode|copy|csect|dsect|equ|macro|print|rmode|rsect|start|title|using)( |$)'
  [ -t 2 ] || return 0
  for word; do [ ! -f "$word" ] || file=$word; done
  [[ "$name $*" == 'vsm-explain '@(check|list)' '* && "$*" != *refused* ]] && warns=1
  [ -n "$file" ] || return 0
  for _ in {1..50}; do
    IFS= read -r line || [ -n "$line" ] || return 0
    for word in ${line#'*! '}; do
      [[ -z $warns && $line == '*! '* && $word == --* && " $* " != *" ${word%%=*}"[\ =]* ]] || continue
      say "a comment of ${file##*/} asks for ${line#'*! '}: only the tools read it, so give it here too"
      return 0
    done
    [[ $line == \** || -z $line ]] || break
  done <"$file"
  [[ ! ${file,,} =~ \.(asm|assemble|hlasm|mlc)$ && ! ${line,,} =~ $operation ]] ||
    say "${file##*/} looks like assembler source: tools/vsm-paste makes a script of it"
}

if [ -x "$program" ] && "$top/prove" --program "$crate" --check; then
  advise "$@"
  exec "$program" "$@"
fi
case $#,${1-} in
  1,--help | 1,-h) print_help ;;
esac
if ! "$top/prove" --program "$crate" --check "$unproved"; then
  compile_once
elif [ -t 2 ]; then
  tell
fi
advise "$@"
# Its errors about arguments begin with this name. The compiled-in checks would also look for leaks at its end.
ASAN_OPTIONS=${ASAN_OPTIONS-detect_leaks=0} exec -a "$name" "$unproved" "$@"
