# Proves every crate that the program needs, lowest first, and builds the program. It says which crate it is at, how
# far the whole is, and how long it has taken. The program that stood before stays until the new one is there.
. "$tools/seconds.sh"
log=$crate/out/build.log
began=$(date +%s)

minutes() { echo "$((($(date +%s) - began) / 60)) min so far"; }

# How far the whole is by what each crate took last time, the crate at work as far as its functions are checked by the log.
progress() {
	awk -v before="$before" -v takes="$takes" -v all="$all" '
	/^== / { said = part = "" }
	/^so far: [0-9]+ of [1-9]/ {
		said = $3 " of " $5 " functions, "
		part = $3 / $5
	}
	END { printf "%s%d of about %d min", said, (before + part * takes) / 60, all }' "$log"
}

# Waits for the child. On a terminal a line is kept up to date; elsewhere a crate is a line.
wait_for_crate() {
	if [ -t 2 ]; then
		while kill -0 "$child" 2>/dev/null; do
			printf '\r%78s\r%.78s' '' "bin/htl: proving $name, crate $number of $count, $(progress)" >&2
			sleep 2
		done
		printf '\r%78s\r' '' >&2
	fi
	wait "$child"
	ended=$?
	child=
	return "$ended"
}

# Keeps how long the crate took, unless it was taken over from an earlier proof.
keep_seconds() {
	took=$(($(date +%s) - crate_began))
	[ $((took * 5)) -lt "$takes" ] || echo "$name $took" >>"$taken"
}

# Puts back the program that stood before, unless a new one was built and ran.
put_back() {
	[ ! -f "$room/before" ] || [ -n "${built-}" ] || mv -f "$room/before" "$program"
}

give_up() {
	say "crate $number of $count, $name, was not proved or built, after $(minutes); the end of $log is:"
	tail -n 8 "$log" | cut -c 1-300 >&2
	[ ! -f "$room/before" ] || say "the program that stood before stays: $program"
	exit 1
}

# Ends with the status $1 where the proof is stopped.
stop() {
	end_child
	[ ! -t 2 ] || echo >&2
	say "stopped at crate $number of $count, $name, after $(minutes); the crates that were proved are kept, and bin/htl --prove goes on from there"
	exit "$1"
}

need_rt
make_room
mkdir -p "$crate/out" || fail "the folder $crate/out can't be made"
exec 9>"$crate/out/prove.lock"
if command -v flock >/dev/null 2>&1 && ! flock -n 9; then
	fail "another bin/htl --prove is at work here"
fi
trap 'put_back; rm -rf "$room"' EXIT
trap 'stop 129' HUP
trap 'stop 130' INT
trap 'stop 143' TERM
[ ! -f "$program" ] || cp -p "$program" "$room/before" || exit 1
: >"$log" || exit 1
seconds_of_crates >"$room/seconds" && proved_sources=$(sources) || exit 1
count=$(($(wc -l <"$room/seconds")))
all=$(all_minutes)
number=0 before=0
say "proving the $count crates of the program: about $all min where nothing is proved yet, less where something is"
say "it may be stopped at any time, the crates that were proved are kept; meanwhile bin/htl runs unproved"
while read -r name takes <&4; do
	number=$((number + 1))
	crate_began=$(date +%s)
	[ -t 2 ] || say "$name, crate $number of $count, $((before / 60)) of about $all min, $(minutes)"
	echo "== $name" >>"$log"
	if [ "$name" = times ]; then
		(cd "$here/crates/times" && exec rt run -- "$here/crates/times/data/two.htlo") </dev/null 4<&- 9>&- >"$room/times" 2>>"$log" &
	elif [ "$name" = htl ]; then
		(cd "$crate" && exec rt run -- go "$crate/data/source.htl") <"$crate/stdin" 4<&- 9>&- >"$room/printed" 2>>"$log" &
	else
		(cd "$here/crates/$name" && exec rt lib) </dev/null 4<&- 9>&- >>"$log" 2>&1 &
	fi
	child=$!
	wait_for_crate || give_up
	keep_seconds
	before=$((before + takes))
done 4<"$room/seconds"
[ -x "$program" ] && cmp -s "$room/printed" "$crate/stdout" && { [ ! -f "$room/times" ] || cmp -s "$room/times" "$here/crates/times/stdout"; } || {
	echo "the program did not print the stored run" >>"$log"
	give_up
}
built=yes
if write_stamp "$proved_sources" "bin/htl --prove"; then
	say "proved, $count of $count, in $((($(date +%s) - began + 59) / 60)) min; bin/htl runs crates/htl/out/htl from now on"
else
	say "proved, but sources changed meanwhile, so what was proved is none of them; bin/htl --prove proves what stands now"
fi
exit 0
