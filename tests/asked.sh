# What the true program answers to many words, asked once and kept in $work/asked: by the proved program where it stands,
# else by one unproved build for all of them, after one that makes the objects. `asked NAME` gives an answer again: its
# output, its fault line, its status.

asked() {
	[ -d "$work/asked" ] || (ask_all)
	cat "$work/asked/$1.out"
	cat "$work/asked/$1.err" >&2
	return "$(cat "$work/asked/$1.status")"
}

# This repository's bin/htl, with the true rt.
true_htl() { PATH=${PATH#"$work/tools:"} "$root/bin/htl" "$@"; }

# What the true `times` prints of the object in the file $2, asked once and kept by the name $1.
times_of() {
	[ -s "$work/times/$1" ] || { mkdir -p "$work/times" && true_htl times "$2" >"$work/times/$1"; }
	cat "$work/times/$1"
}

# Puts down what to ask: a name, the file that is standard input (`lines`: what `lines` wrote last), and the words.
ask() {
	[ "$2" = lines ] && cp "$work/asked/lines" "$work/asked/cases/$1" || cp "$2" "$work/asked/cases/$1"
	name=$1
	shift 2
	printf '%s\n' "$@" >"$work/asked/cases/$name.args"
}

lines() { printf '%s\n' "$@" >"$work/asked/lines"; }

# Asks to compile a source after sed has changed it: a name, the source, and what sed does.
ask_changed() {
	name=$1
	source=$2
	shift 2
	sed "$@" "$source" >"$work/asked/lines"
	ask "$name" lines compile
}

# A source of the tanks with the second one in front of the first.
second_first() {
	awk '/^  module T1 /, /^  }/ { first = first $0 "\n"; next } /^  module T2 /, /^  }/ { print; if (/^  }/) printf "%s", first; next } 1' "$1"
}

# Asks to compile a source with this expression of an int.
ask_output() {
	lines 'program P { module M start m { task t input (int x) output (int y = ' "$2" ') worst 4; mode m period 20 { } } }'
	ask "$1" lines compile
}

ask_all() {
	mkdir -p "$work/asked/cases" "$work/asked/data"
	case $("$root/bin/htl" --version) in
	*' is proved, '*) : >"$work/asked/proved" ;;
	esac
	cp "$root"/examples/*.htl "$root"/examples/*.toml "$work/asked/data"
	sed 's/(kind, 3)/(kind, 4)/' "$root/examples/overload.htl" >"$work/asked/data/belt.htl"
	for it in $examples; do ask go-$it "$(script_of $it)" go $it.htl; done
	for it in $examples soft; do ask compile-$it "$work/asked/data/$it.htl" compile; done
	ask_changed compile-slow "$root/examples/soft.htl" 's/worst 120/worst 121/; s/worst 80/worst 121/'
	ask_changed compile-belt "$root/examples/overload.htl" 's/(kind, 3)/(kind, 4)/'
	ask_changed compile-whole "$root/examples/tanks.htl" "$(sed -n 's/.*\(task soft .*\)/s:task damp .*:\1:/p' "$root/examples/soft.htl"); s/invoke damp/invoke soft/"
	for it in slow fast; do ask compile-on-$it "$root/examples/motor.htl" compile with $it.toml; done
	# The tanks with rounds of 1000 for the second one, and the same with the other law.
	ask_changed compile-uneven "$root/examples/tanks.htl" '/module T2/,/^  }/s/500/1000/'
	sed '/module T2/,/^  }/s/500/1000/' "$work/asked/cases/compile-whole" >"$work/asked/lines"
	ask compile-whole-uneven lines compile
	# The tanks with the second one first, and the same with the other law.
	second_first "$root/examples/tanks.htl" >"$work/asked/lines"
	ask compile-second-first lines compile
	second_first "$work/asked/cases/compile-whole" >"$work/asked/lines"
	ask compile-whole-second-first lines compile
	printf '%s\n' 'name = "line"' '[worst]' '"Camera.label" = 30' >"$work/asked/data/line.toml"
	ask compile-on-line "$work/asked/data/belt.htl" compile with line.toml
	ask_wide_patches
	ask_whole
	ask_pages
	answer_all
	for it in $examples; do grep '^j ' "$work/asked/go-$it.out" >"$work/asked/data/$it.log"; done
	for it in $examples soft slow whole uneven whole-uneven on-slow on-fast second-first whole-second-first on-line \
		six-levels five-under-M2 five-under-M5 many-modes 55-modes 56-modes; do
		cp "$work/asked/compile-$it.out" "$work/asked/data/$it.object"
	done
	(
		cd "$work/asked/data" || exit
		ask_for_all
		ask_logs
		ask_damaged
	)
	ask_pages
	answer_all
	answer_pages
}

# What the pages ask, as far as answers that they go on from are known.
ask_pages() {
	[ ! -f "$work/asked/proved" ] || return 0
	follow_page all >/dev/null 2>&1
	for page in $pages; do type_page "$page"; done
}

# Has those questions of the pages answered to which answers of theirs lead, a few times.
answer_pages() {
	for it in 1 2 3; do
		ask_pages
		[ -z "$(ls "$work/asked/cases")" ] || answer_all
	done
}

# Has all answered that was put down, and keeps it no longer.
answer_all() {
	[ -f "$work/asked/proved" ] && ask_proved || ask_unproved
	rm -f "$work"/asked/cases/*
}

ask_proved() {
	for it in "$work"/asked/cases/*.args; do
		answer=$work/asked/$(basename "$it" .args)
		(cd "$work/asked/data" && "$root/crates/htl/out/htl" $(cat "$it")) <"${it%.args}" >"$answer.out" 2>"$answer.err"
		echo $? >"$answer.status"
	done
}

# Behind what rt try told of a case stands `case=NAME run=ended status=N ..`.
ask_unproved() {
	for it in "$work"/asked/cases/*.args; do
		answer=$work/asked/$(basename "$it" .args)
		: >"$answer.out"
		: >"$answer.err"
	done
	set --
	for it in "$work"/asked/data/*; do [ ! -f "$it" ] || set -- "$@" --data "$(basename "$it")=$it"; done
	(
		PATH=${PATH#"$work/tools:"}
		cd "$root/crates/htl" && rt try --seconds 3600 "$@" --cases "$work/asked/cases"
	) </dev/null >"$work/asked/printed" 2>"$work/asked/told"
	python3 "$root/tests/split.py" "$work/asked" "$work/asked/printed"
	awk -v folder="$work/asked/" '
	/^case=[^ ]* run=ended status=[0-9]+ / {
		split($0, part, /[= ]/)
		printf "%s", told >(folder part[2] ".err")
		print part[6] >(folder part[2] ".status")
		close(folder part[2] ".err")
		close(folder part[2] ".status")
		told = ""
		next
	}
	{ told = told $0 "\n" }' "$work/asked/told"
}

# Asks to compile a source of two modules that do nothing: a name, their periods, and what else stands in the first.
ask_rates() {
	lines "program P { module A start m { mode m period $2 { } ${4-} } module B start m { mode m period $3 { } } }"
	ask "$1" lines compile
}

# A source of modules one under the other, with these names.
tower() {
	n=$#
	for it; do
		echo "program P$n { $([ $n -lt $# ] || echo 'communicator int u period 10 init 0;') module $it start m {"
		[ $n -gt 1 ] && echo '  abstract task t input () output (int y) worst 2;' || echo '  task t input () output (int y = 1) worst 2;'
		echo "  mode m period 10 $([ $n -eq 1 ] || echo "program P$((n - 1))") { invoke t input () output ((u, 1))$([ $n -eq $# ] || echo ' parent t'); } } }"
		n=$((n - 1))
	done
}

# A source of two modules, the first with so many modes; the mode of the second has a child with so many more, where there are any.
many_modes() {
	awk -v first="$1" -v below="$2" 'BEGIN {
		printf "program P { module A start m1 {"
		for (i = 1; i <= first; i++) printf " mode m%d period 10 { }", i
		print " } module M start m { mode m period 10 " (below ? "program Q " : "") "{ } } }"
		if (!below) exit
		printf "program Q { module N start m1 {"
		for (i = 1; i <= below; i++) printf " mode m%d period 10 { }", i
		print " } }"
	}'
}

# Asks for objects that keep their limits, and some of which exceed them when they are put together.
ask_wide_patches() {
	tower M0 M1 M2 M3 M4 M5 >"$work/asked/lines"
	ask compile-six-levels lines compile
	for level in 2 5; do
		tower M$level N1 N2 N3 N4 N5 >"$work/asked/lines"
		ask compile-five-under-M$level lines compile
	done
	many_modes 200 0 >"$work/asked/lines"
	ask compile-many-modes lines compile
	for it in 55 56; do
		many_modes 1 $it >"$work/asked/lines"
		ask compile-$it-modes lines compile
	done
}

# Asks for frames at their limits and beyond, and for a program whose modules have the periods 10 and 20.
ask_frames() {
	ask_rates frame-multiple 1000000 999999
	ask_rates frame-starts 10 330
	ask_rates frame-32-starts 10 320
	ask_rates frame-paths 10 110 'mode n period 10 { }'
	ask_rates frame-1024-paths 10 100 'mode n period 10 { }'
	for it in 12 13; do
		awk -v n=$it 'BEGIN {
			printf "program P { module A start m { "
			for (i = 1; i <= n; i++) printf "task t%d input () output () worst 1; ", i
			printf "mode m period 20 { "
			for (i = 1; i <= n; i++) printf "invoke t%d input () output (); ", i
			print "} } module B start m { mode m period 200 { } } }"
		}' >"$work/asked/lines"
		ask frame-$((10 * it))-positions lines compile
	done
	for it in 9 15; do
		lines 'program P {' '  communicator int u period 10 init 1;' '  communicator int w period 10 init 0;' \
			'  module F start m { task a input (int i) output (int o = i + 1) worst 3;' \
			'    mode m period 10 { invoke a input ((u, 0)) output ((u, 1)); } }' \
			"  module G start m { task b input (int i) output (int o = i * 10) worst $it;" \
			'    mode m period 20 { invoke b input ((u, 0)) output ((w, 2)); } }' '}'
		cp "$work/asked/lines" rates-$it.htl
		lines 'end 20'
		ask go-rates-$it lines go rates-$it.htl
	done
}

# Asks what the pages about four objects are made of, as tests/runs/NAME-report.txt has it, and for runs of random readings.
ask_reports() {
	for it in boiler cascade tanks motor; do
		sed -n 's/^> //p' "$RUNS/$it-report.txt" >"$work/asked/words"
		n=0
		while read -r word rest; do
			n=$((n + 1))
			echo "$rest" | awk 'NF > 1 { for (i = 1; i < NF; i += 2) print "mode " $i " " $(i + 1) }' >"$work/asked/lines"
			[ "$word" != plan ] || rest=
			ask report-$it-$n lines $word $it.object $rest
		done <"$work/asked/words"
		step=$(awk '/^(sensor|comm) / && (least == "" || $5 < least) { least = $5 } END { print least }' "$RUNS/$it-listing.txt")
		for seed in 1 2 3; do
			awk -v seed=$seed -v count=400 -v step="$step" -f "$root/tests/readings.awk" "$RUNS/$it-listing.txt" >"$work/asked/lines"
			ask random-$it-$seed lines jobs $it.object
		done
	done
}

# All that is asked, in the folder of the files that the words name.
ask_for_all() {
	cp "$root/examples/cascade.log" monotonic.log
	cp ../compile-belt.out belt.object
	printf '%s\n' 'j 0 3 Inner.turn.steer' 'j 3 9 Outer.track.plan' 'j 9 12 Inner.turn.steer' >late.log
	size=$(wc -c <tanks.object)
	head -c $((size - 1)) tanks.object >cut.object
	# The first dispatch ends at 200 in place of 220.
	{ head -c $((size - 9)) tanks.object && printf '\310' && tail -c 8 tanks.object; } >short-of-time.object
	small_object >small.object
	sed 's/(weight, 2)/(weight, 1)/' overload.htl >belt-read.htl
	sed 's/worst 30/worst 20/' overload.htl >belt-worst.htl
	sed 's/worst 110/worst 130/' tanks.htl >greedy.htl
	awk 'BEGIN { for (i = 0; i < 1048577; i++) printf " " }' >long.htl

	for it in monotonic late; do ask audit-$it "$root/examples/cascade.script" audit cascade.object $it.log; done
	for it in overload; do ask go-$it "$root/examples/$it.script" go $it.htl; done
	lines 'end 0'
	for it in belt-read belt-worst greedy long missing; do ask go-$it lines go $it.htl; done

	for it in tanks cascade cut short-of-time small; do ask check-$it /dev/null check $it.object; done
	for it in tanks motor boiler cascade belt; do ask show-$it /dev/null show $it.object; done
	ask show-small /dev/null show small.object
	for it in jobs run code; do ask $it-tanks "$root/examples/tanks.script" $it tanks.object; done
	for it in motor cascade; do ask code-$it "$root/examples/$it.script" code $it.object; done
	ask jobs-short-of-time "$root/examples/tanks.script" jobs short-of-time.object
	lines 'at 0' 'sense h1 250' 'at 200' 'took C1.p.prop 61'
	ask jobs-overrun lines jobs tanks.object
	ask run-no-end /dev/null run tanks.object
	for it in p pi; do
		lines 'mode T1 hold' "mode C1 $it" 'mode T2 hold'
		ask plan-$it lines plan tanks.object
	done
	lines 'mode Outer track' 'mode Inner turn'
	ask plan-cascade lines plan cascade.object
	lines 'mode T1 hold' 'mode C1 -'
	ask plan-inactive lines plan tanks.object
	ask plan-small /dev/null plan small.object
	lines 'mode M m'
	ask plan-after lines plan small.object
	for it in filter control guard none; do ask slack-$it /dev/null slack motor.object Drive.$it; done
	ask slack-cascade /dev/null slack cascade.object Outer.plan
	ask slack-tanks /dev/null slack tanks.object T2.direct
	ask_reports
	for it in soft slow; do ask patch-$it /dev/null patch tanks.object T1.hold $it.object; done
	for it in on-slow on-fast; do
		ask check-$it /dev/null check $it.object
		ask show-$it /dev/null show $it.object
		ask jobs-$it "$root/examples/motor.script" jobs $it.object
	done
	sed 's/worst 6/worst 7/' motor.htl >"$work/asked/lines"
	ask compile-on-slow-late lines compile with slow.toml
	ask patch-uneven /dev/null patch uneven.object T1.hold soft.object
	ask show-whole-uneven /dev/null show whole-uneven.object
	ask show-whole /dev/null show whole.object
	ask jobs-whole "$root/examples/tanks.script" jobs whole.object
	ask patch-second-first /dev/null patch second-first.object T1.hold soft.object
	for it in 2 5; do ask patch-under-M$it /dev/null patch six-levels.object M$it.m five-under-M$it.object; done
	for it in 55 56; do ask patch-$it-modes /dev/null patch many-modes.object M.m $it-modes.object; done
	ask show-on-line /dev/null show on-line.object
	ask patch-mode /dev/null patch tanks.object T1.none soft.object
	for it in 1 2 64; do ask bulk-$it /dev/null bulk $it; done
	for it in 0 65 01 +1; do ask bulk-wrong-$it /dev/null bulk $it; done

	ask compile-overload overload.htl compile
	ask compile-long long.htl compile
	ask_changed compile-slow-plan cascade.htl 's/worst 30/worst 36/'
	ask_frames
	ask_changed compile-twice thermostat.htl 's/door period/temperature period/'
	ask_output compile-type 'x < 2'
	ask_output compile-operator 'x + (x < 2)'
	ask_output compile-deep "$(awk 'BEGIN { for (i = 0; i < 64; i++) { left = left "1 + ("; right = right ")" } print left "1" right }')"

	ask_changed fraction-worst motor.htl 's/worst 6/worst 3.5/'
	ask_changed fraction-init motor.htl 's/init 0;/init 0.5;/'
	sed 's/end 60/end 1.5/' "$root/examples/motor.script" >"$work/asked/lines"
	ask fraction-end lines jobs motor.object
	printf '%s\n' 'name = "x"' '[worst]' '"Drive.filtre" = 3' >unknown.toml
	printf '%s\n' 'name = "x"' '[worst]' '"Drive.filter" = 3.5' >half.toml
	for it in unknown half; do ask platform-$it motor.htl compile with $it.toml; done

	ask_changed form-13 tanks.htl -e 's/ program Q1//' -e '/^program Q1/,$d'
	ask_changed form-14 tanks.htl '/invoke prop/s/ parent ctrl//'
	ask_changed form-14-code tanks.htl -e 's/ worst 120;/& task own input (int h) output () worst 1;/' \
		-e 's/program Q1 { /&invoke own input ((h1, 1)) output (); /' -e '/invoke damp/s/parent ctrl/parent own/'
	ask_changed form-15 tanks.htl -e 's/communicator int u2/communicator int u3 period 100 init 0; &/' \
		-e 's/invoke prop/invoke damp input ((h1, 1)) output ((u3, 4)) parent ctrl; &/'
	ask_changed form-16-release tanks.htl '/invoke damp/s/(h1, 1)/(h1, 2)/'
	ask_changed form-16-end tanks.htl '/invoke damp/s/(u1, 4)/(u1, 3)/'
	ask_changed form-16-worst greedy.htl ''
	ask form-16-port "$root/tests/runs/unordered.htl" compile
}
