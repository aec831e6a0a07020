# What stands at crates/htl/out/htl, by the stamp beside it: an item a line, `program SUM`, `times SUM` of the second program at
# crates/times/out/times, `machine ..` on which they run, `sources SUM` of all that the proof read, `toolchain ..` and `by WHO at COMMIT`. It guards against slips, and not against who may write both files.
# Wants `here`, the folder of the repository.
program=$here/crates/htl/out/htl
stamp=$program.proved
times=$here/crates/times/out/times
# The item of the program that is run, and whether its words stand alone, without the first of bin/htl.
item=program
alone=
sums=cksum
! command -v sha256sum >/dev/null 2>&1 || sums=sha256sum

# The sum of standard input.
sum_of() {
	set -- $("$sums")
	echo "$1"
}

# What a proof of the program reads: not what was made from it, nor the wrong bodies that it refuses, nor what only tests are compiled
# from, as the crates of tests and of their samples.
read_by_proof() {
	cd "$here" || return
	things="crates.txt crates"
	[ ! -f HANDLES ] || things="HANDLES $things"
	find $things \( -name out -o -name must-fail -o -name 'htl_*_tests' -o -name htl_tests -o -name htl_samples \) -prune -o "$@"
}

# The program that is run is `times`.
take_times() {
	crate=$here/crates/times
	program=$times
	item=times
	alone=yes
}

# One sum of the names and contents of all that a proof reads.
sources() {
	(read_by_proof ! -type d ! -name '*_tests.rt' -exec "$sums" {} +) 2>/dev/null | LC_ALL=C sort | sum_of
}

# The item $1 of the stamp.
of_stamp() {
	while read -r item rest; do
		[ "$item" != "$1" ] || echo "$rest"
	done 2>/dev/null <"$stamp"
}

# Whether no file or folder that a proof reads has changed in content, place or status since the stamp's time, which is in the past.
# A `find` that can't tell says no.
is_untouched() (
	[ -n "$(find "$stamp" -cnewer "$stamp" 2>/dev/null)" ] || exit
	changed=$(read_by_proof -cnewer "$stamp" -print 2>/dev/null) && [ -z "$changed" ]
)

# A time before all that is done from here on, for the stamp.
now_for_stamp() { date +%Y%m%d%H%M.%S; }

# none: no program stands; foreign: it isn't the one of the stamp, or not for this machine; stale: a source changed since; proved: it is what
# the sources say.
state() {
	if [ ! -f "$program" ] || [ ! -x "$program" ]; then
		echo none
	elif [ ! -f "$stamp" ] || [ "$(of_stamp $item)" != "$(sum_of <"$program")" ] || [ "$(of_stamp machine)" != "$(uname -s -m)" ]; then
		echo foreign
	elif is_untouched; then
		echo proved
	else
		looked=$(now_for_stamp)
		if [ "$(of_stamp sources)" = "$(sources)" ]; then
			touch -c -t "$looked" "$stamp" 2>/dev/null
			echo proved
		else
			echo stale
		fi
	fi
}

# Writes the stamp of the program that stands: $1 the sum of the sources before their proof began, $2 who proved them. Where
# they have changed since, it is known of none that they were proved: the stamp says so, and the status is 1.
write_stamp() {
	looked=$(now_for_stamp)
	proved=$1
	if [ "$1" != "$(sources)" ]; then
		proved="changed while they were proved"
		looked=197001020000
	fi
	commit=$(git -C "$here" rev-parse --short=12 HEAD 2>/dev/null) && {
		[ -z "$(git -C "$here" status --porcelain -- crates crates.txt 2>/dev/null)" ] || commit="$commit with changes"
	}
	{
		echo "program $(sum_of <"$program")"
		[ ! -f "$times" ] || echo "times $(sum_of <"$times")"
		echo "machine $(uname -s -m)"
		echo "sources $proved"
		echo "toolchain $(rt version)"
		echo "by $2, at ${commit:+commit }${commit:-no commit}"
	} >"$stamp.new" && touch -t "$looked" "$stamp.new" && mv -f "$stamp.new" "$stamp" && [ "$proved" = "$1" ]
}
