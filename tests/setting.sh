# For the commands of the tables: a repository with this one's bin/ and tools/, and stand-ins for the program and for rt.
# $htl is its bin/htl, in a folder whose name has a blank; $calls lists the calls of rt, and $calls.stdin holds what the last one read.
repo="$work/a repository"
htl="$repo/bin/htl"
calls="$work/calls"
export calls work root
export LC_ALL=C.UTF-8
. "$root/tests/asked.sh"
. "$root/tests/logs.sh"
. "$root/tests/damaged.sh"
. "$root/tests/pages.sh"
. "$root/tests/tutorial.sh"

# Makes the repository: with no program, with one that is proved, with one that isn't that of its stamp, or with one of other sources.
set_up() {
	rm -rf "$repo" "$work/tools" "$calls" "$calls.stdin"
	mkdir -p "$repo/crates/htl/src" "$repo/crates/times" "$repo/crates/low/src" "$repo/crates/other/src" "$repo/crates/htl/data" "$work/tools"
	cp -R "$root/bin" "$root/tools" "$repo/"
	printf 'low:\nother: low\nhtl: low std\n' >"$repo/crates.txt"
	echo '// a source' >"$repo/crates/low/src/lib.rt"
	echo '// a source' >"$repo/crates/htl/data/source.htl"
	echo 'end 0' >"$repo/crates/htl/stdin"
	echo 'v 0 bytes 6' >"$repo/crates/htl/stdout"
	printf 'low 60\nhtl 60\n' >"$repo/tools/crate-seconds.txt"
	cp "$root/tests/fake-rt" "$work/tools/rt"
	chmod +x "$work/tools/rt"
	case $1 in
	proved)
		install_program
		stamp_program
		;;
	foreign) install_program ;;
	stale)
		install_program
		stamp_program
		echo '// edited' >>"$repo/crates/low/src/lib.rt"
		;;
	esac
}

# Writes the stamp of a program that is proved, of this repository or of that in the folder $1.
stamp_program() (
	here=${1-$repo}
	. "$root/tools/stamp.sh"
	write_stamp "$(sources)" "a case"
	rm -f "$calls"
)

install_program() {
	mkdir -p "$repo/crates/htl/out" "$repo/crates/times/out"
	cp "$root/tests/fake-htl" "$repo/crates/htl/out/htl"
	cp "$root/tests/fake-times" "$repo/crates/times/out/times"
	chmod +x "$repo/crates/htl/out/htl" "$repo/crates/times/out/times"
}

# What bin/htl takes the program of a repository for, this one or the one named: proved, stale, foreign or none. `shell` runs it.
state_of() {
	case $(${shell-sh} "${1-$repo}/bin/htl" --version | tail -n 1) in
	*'is proved, '*) echo proved ;;
	sources\ changed*) echo stale ;;
	*"isn't the program"*) echo foreign ;;
	'no proved program'*) echo none ;;
	esac
}

# The state after each of the things that happen to a repository, in which the program is proved at first.
all_states() {
	low=$repo/crates/low
	set_up proved
	echo "as proved: $(state_of)"
	touch -t 203001010000 "$low/src/lib.rt"
	echo "touched: $(state_of)"
	mkdir "$low/must-fail" "$low/out" && echo x >"$low/must-fail/a.edit" && echo x >"$low/src/low_tests.rt" && echo x >"$low/out/x"
	echo "a wrong body, a test, kept work: $(state_of)"
	cp "$low/src/lib.rt" kept
	echo '// edited' >>"$low/src/lib.rt" && touch -t 202001010000 "$low/src/lib.rt"
	echo "edited, with an older time: $(state_of)"
	cp kept "$low/src/lib.rt"
	echo "restored: $(state_of)"
	mv "$low/src/lib.rt" away
	echo "deleted: $(state_of)"
	mv away "$low/src/lib.rt"
	touch -t 202001010000 kept && cp -p kept "$low/src/more.rt"
	echo "added, with an older time: $(state_of)"
	mv "$low/src/more.rt" "$repo/crates/other/src/more.rt"
	echo "moved: $(state_of)"
	rm "$repo/crates/other/src/more.rt"
	echo "taken away: $(state_of)"
	touch -t 203001010000 "$repo/crates/htl/out/htl.proved" && echo '// edited' >>"$low/src/lib.rt"
	echo "edited, with a stamp of the future: $(state_of)"
	cp kept "$low/src/lib.rt" && cp -r "$repo" "$work/copied"
	echo "copied: $(state_of "$work/copied")"
	rm -r "$work/copied/crates/htl/out"
	echo "a clone: $(state_of "$work/copied")"
	mkdir "$work/copied/crates/htl/out" && cp "$repo/crates/htl/out/htl" "$repo/crates/htl/out/htl.proved" "$work/copied/crates/htl/out"
	echo "a clone with both files: $(state_of "$work/copied")"
	echo x >>"$work/copied/crates.txt"
	echo "another clone with both files: $(state_of "$work/copied")"
	rm -r "$work/copied"
	printf '#!/bin/sh\necho another machine\n' >"$work/tools/uname" && chmod +x "$work/tools/uname"
	echo "on another machine: $(state_of)"
	rm "$work/tools/uname"
	printf '#!/bin/sh\necho all is well\n' >"$repo/crates/htl/out/htl"
	echo "a script in its place: $(state_of)"
	set_up foreign
	echo "without a stamp: $(state_of)"
}

# The tools of busybox in front of PATH.
with_busybox() {
	mkdir -p "$work/busybox"
	for it in find sha256sum sort touch date; do ln -sf "$(command -v busybox)" "$work/busybox/$it"; done
	PATH=$work/busybox:$PATH
}

# Puts a program in the place of the proved one that gives the fault line $1, without its `htl: `, with the status $2.
answering() {
	printf '#!/bin/sh\ncat >/dev/null\necho "htl: %s" >&2\nexit %s\n' "$1" "$2" >"$repo/crates/htl/out/htl"
	stamp_program
}

# A command on a terminal, which types the first word.
on_terminal() { python3 "$root/tests/terminal.py" "$@"; }

# A source that is answered so by the stand-in for the program: a status and what follows `htl: `.
source_answered() {
	echo "// answers $*"
	cat
}

# The object of a program without modules, whose communicator u is an int of period 10 and begins at 7.
small_object() { printf 'HTLO\0\1\0\1\0\0\0\0\0\0\0\0\0\0\0\0\1u\0\0\0\0\0\12\0\0\0\0\0\0\0\7\0\0\0\0\0\0'; }

# The first part of the object of a program of two periods, up to its invocations: F with modes m and n of 10, and G with m of 20.
two_periods() {
	printf 'HTLO\0\1\0\1\0\3\0\2\0\0\0\2\0\3\0\0\1u\0\0\0\0\0\12\0\0\0\0\0\0\0\1'
	printf '\1m\0\0\0\0\0\12\1n\0\0\0\0\0\12\1m\0\1\0\0\0\24\1F\377\377\0\0\1G\377\377\0\2'
	printf '\1a\0\0\0\0\0\0\3\0\1\0\0\1\0\1b\0\1\0\0\0\0\11\0\0\0\0'
	for it in '\0\0\0\0' '\0\1\0\0'; do printf "$it"'\377\377\0\1\0\0\0\0\0\0\0\0\1\0\0\0\0\0\0\1'; done
	printf '\0\2\0\1\377\377\0\0\0\0'
}

# The object of a program up to its modules: F with modes m and n, and R with r, which refines F.m.
refining_modules() {
	printf 'HTLO\0\1\0\0\0\3\0\2\0\0\0\0\0\0\0\0'
	printf '\1m\0\0\0\0\0\12\1n\0\0\0\0\0\12\1r\0\1\0\0\0\12\1F\377\377\0\0\1R\0\0\0\2'
}

# The listing, as far as pictures need it, of a program with a module F of period 10 and a module G of 20, which R refines.
two_rates() {
	printf '%s\n' 'comm u int period 10 init 1' 'module F start m' 'module G start m' 'module R start r parent G.m' 'mode F.m period 10' \
		'mode F.n period 10' 'mode G.m period 20' 'mode R.r period 20' 'inv F.m.a worst 3 window 0 10' 'inv G.m.b worst 9 window 0 20 abstract' \
		'inv R.r.c worst 9 window 0 20 parent G.m.b'
}
