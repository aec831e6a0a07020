# Damaged logs and platform files for the true program: each proper prefix of a file, and the file with each of its bytes
# changed to 0, to 255 and by its lowest bit. What is to be answered is said by log-judge.awk, from the jobs of the run,
# and by platform-judge.py; neither knows the program.

# Two jobs of which the second may interrupt the first, for one round; and, for two, a job that reads what another hands it,
# which takes less in the second round.
two_jobs='program P {
  communicator int x period 2 init 1;
  communicator int y period 2 init 0;
  communicator int z period 10 init 0;
  module M start m {
    task a input (int i) output (int o = i + 1) worst 7;
    task b input (int i) output (int o = i * 5) worst 3;
    mode m period 10 { invoke a input ((x, 0)) output ((z, 1)); invoke b input ((x, 1)) output ((y, 3)); }
  }
}'
handed_on='program P {
  communicator int x period 10 init 2;
  communicator int u period 10 init 0;
  module M start m {
    task p input (int i) output (int o = i + 5) worst 3;
    task q input (int i) output (int o = i * 2) worst 4;
    mode m period 10 { port int k; invoke q input (k) output ((u, 1)); invoke p input ((x, 0)) output (k); }
  }
}'

# A log of each, which is legal; what is known of the jobs up to the end of the run; and the run's lines of values and modes.
# Behind `job`: the name, the window, the ticks, and the numbers of the jobs before it.
write_logs() {
	printf '%s\n' 'j 0 3 M.m.a' 'j 3 6 M.m.b' 'j 6 10 M.m.a' >two.log
	printf '%s\n' 'job M.m.a 0 10 7' 'job M.m.b 2 6 3' 'end 10' >two.jobs
	printf '%s\n' 'v 0 x 1' 'v 0 y 0' 'v 0 z 0' 'm 0 M m' 'v 6 y 5' 'v 10 z 2' >two.lines
	echo 'end 10' >two.script
	printf '%s\n' 'j 0 3 M.m.p' 'j 3 7 M.m.q' 'j 10 11 M.m.p' 'j 11 15 M.m.q' >handed.log
	printf '%s\n' 'job M.m.p 0 10 3' 'job M.m.q 0 10 4 1' 'job M.m.p 10 20 1' 'job M.m.q 10 20 4 3' 'end 20' >handed.jobs
	printf '%s\n' 'v 0 x 2' 'v 0 u 0' 'm 0 M m' 'v 10 u 14' >handed.lines
	printf '%s\n' 'at 10' 'took M.m.p 1' 'end 20' >handed.script
}

# Writes the damaged forms of the file $1, by what was done and the place of the byte, to the folder $2, which is made.
damage() {
	mkdir -p "$2"
	od -An -v -tu1 "$1" | awk '
	{ for (i = 1; i <= NF; i++) byte[n++] = $i }
	function text(from, to,    i, all) {
		for (i = from; i < to; i++) all = all sprintf("\\%03o", byte[i])
		return all
	}
	function put(name, all) { print "printf \"" all "\" >" name }
	function change(name, at, to) { put(name, text(0, at) sprintf("\\%03o", to) text(at + 1, n)) }
	END {
		for (i = 0; i < n; i++) {
			put("cut-" i, text(0, i))
			change("zero-" i, i, 0)
			change("full-" i, i, 255)
			change("bit-" i, i, byte[i] % 2 ? byte[i] - 1 : byte[i] + 1)
		}
	}' | (cd "$2" && sh)
}

damaged=$work/asked/damaged

# What is asked before anything is damaged: the objects of the two sources, and of the first with the worst cases that a
# changed digit of its platform file says.
ask_whole() {
	lines "$handed_on"
	ask compile-handed lines compile
	for a in 6 7; do
		for b in 1 3; do
			lines "$two_jobs"
			sed -i.old "s/worst 7/worst $a/; s/worst 3/worst $b/" "$work/asked/lines"
			ask compile-two-$a-$b lines compile
		done
	done
}

ask_damaged() {
	mkdir -p "$damaged"
	(cd "$damaged" && write_logs)
	cp "$work/asked/compile-two-7-3.out" two.object
	cp "$work/asked/compile-handed.out" handed.object
	for log in two handed; do
		damage "$damaged/$log.log" "$damaged/$log"
		for it in "$damaged/$log"/*; do ask "$log-$(basename "$it")" "$damaged/$log.script" audit $log.object "$it"; done
	done
	printf '%s\n' 'name = "fast"' '[worst]' '"M.a" = 6' '"M.b" = 1' >"$damaged/fast.toml"
	damage "$damaged/fast.toml" "$damaged/fast"
	lines "$two_jobs"
	for it in "$damaged/fast"/*; do ask "fast-$(basename "$it")" lines compile with "$it"; done
}

# What was answered to each damaged form of a log: its name, the status, what was told, and the lines.
log_answers() {
	for it in "$damaged/$1"/*; do
		answer=$work/asked/$1-$(basename "$it")
		echo "$(basename "$it"): $(cat "$answer.status") $(cat "$answer.err")"
		cat "$answer.out"
	done
}

# What is to be answered.
judged_logs() {
	{
		for it in "$damaged/$1"/*; do
			echo "log $(basename "$it")"
			od -An -v -tu1 "$it"
		done
	} | awk -f "$root/tests/log-judge.awk" "$damaged/$1.jobs" shown=1 "$damaged/$1.lines" shown=0 -
}

# Compares both for a log, and says how many forms were legal, and how many had each kind of fault.
compare_logs() {
	[ -d "$work/asked" ] || ask_all
	log_answers "$1" >answered
	judged_logs "$1" >judged
	diff judged answered
	sed -n 's/^[a-z]*-[0-9]*: 0 .*/legal/p; s/^[a-z]*-[0-9]*: 13 htl: log [0-9]* //p' judged | sort | uniq -c | sed 's/^ *//'
}

compare_platforms() {
	[ -d "$work/asked" ] || ask_all
	python3 "$root/tests/platform-judge.py" "$damaged/fast" "$work/asked"
}
