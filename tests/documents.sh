# For the cases of the documents (tests/10-documents.cases): what pages name and quote, read against the files.

# A text in one line, with single blanks, without the marks of quotes and bold type.
flat() { sed 's/^> //; s/\*\*//g' "$@" | tr -s ' \t\n' ' '; }

# The blocks of docs/PROVED.md that quote a statement, each by its name and in one line, and whether one of the files has it.
quoted() {
	for file in "$root/crates/htl_top/src/top.rt" "$root"/crates/htl_top/specs/*Laws.antt; do
		grep -v '^ *\(//\|--\)' "$file" | tr -s ' \t\n' ' '
		echo
	done >files
	awk '/^```antt / { name = $2; text = ""; next }
		/^```/ && name { print name "\t" text; name = ""; next }
		name { text = text " " $0 }' "$root/docs/PROVED.md" | tr -s ' ' | while IFS="$(printf '\t')" read -r name text; do
		grep -q -F -e "${text# }" files && echo "$name stands" || echo "$name differs"
	done
}

# The laws of the crates, and the clauses of the top call, that docs/PROVED.md doesn't name.
unnamed() {
	grep -h -o '^pub fn [a-z_0-9]*' "$root"/crates/*/src/laws.rt "$root/crates/htl_model/src/exchange.rt" | sed 's/pub fn //' >wanted
	"$root/tools/clauses" htl_top | sed -n 's/^htl_top htl //p' | tr ' ' '\n' >>wanted
	sed -n '/^## The commands/,$p' "$root/docs/PROVED.md" | grep -o '`[^`]*`' | tr -d '`' >named
	sort -u wanted | grep -v -x -F -f named
}

# The files that pages name by a path from the root, and that aren't there; and the links of pages that lead nowhere.
absent() {
	for page; do
		sed 's/\\\*/*/g' "$root/$page" | grep -o -E '(^|[^A-Za-z0-9_./])(bin|crates|docs|editors|examples|tests|tools|\.ci)/[A-Za-z0-9_./*-]*[A-Za-z0-9_*]' |
			sed 's/^[^A-Za-z.]//' | sort -u | while IFS= read -r path; do
			case $path in */out/* | */NAME*) continue ;; esac
			(set -- "$root"/$path; [ -e "$1" ]) || echo "$page names $path"
		done
		grep -o '](\([^)#]*\)[^)]*)' "$root/$page" | sed 's/^](//; s/[#)].*//' | sort -u | while IFS= read -r path; do
			[ -z "$path" ] || [ -e "$root/$(dirname "$page")/$path" ] || echo "$page links $path"
		done
	done
}

# The definitions that a page names in brackets, as [FILE: name, name; FILE: name] or [CRATE: FILE: name], behind a heading that
# names its crates, and that no file of specs/ has.
bracketed() {
	awk '
	/^#/ { crates = ""; text = $0; while (match(text, /htl_[a-z_]+/)) { crates = crates " " substr(text, RSTART, RLENGTH); text = substr(text, RSTART + RLENGTH) } }
	/^## / { outer = crates }
	/^### / { if (crates == "") crates = outer }
	{ all = all " \001" crates "\002" $0 }
	END {
		n = split(all, line, "\001")
		for (i = 1; i <= n; i++) {
			at = index(line[i], "\002")
			if (open == "") own = substr(line[i], 1, at - 1)
			text = open substr(line[i], at + 1)
			open = ""
			while ((from = index(text, "[")) > 0) {
				to = index(substr(text, from), "]")
				if (to == 0) { open = substr(text, from); break }
				inner = substr(text, from + 1, to - 2)
				next_sign = substr(text, from + to, 1)
				text = substr(text, from + to)
				if (next_sign != "(" && inner ~ /^(htl_[a-z]+: )?[A-Z][A-Za-z]+/) print own "\t" inner
			}
		}
	}' "$root/$1" | tr -s ' ' | while IFS="$(printf '\t')" read -r own inner; do
		crates=$own
		printf '%s\n' "$inner" | tr ';' '\n' | while IFS= read -r part; do
			part=${part# }
			case $part in htl_*) crates=${part%%:*} part=${part#*: } ;; esac
			files=${part%%:*}
			defs=
			case $part in *:*) defs=${part#*:} ;; esac
			where=
			for file in $(echo "$files" | tr ',' ' '); do
				found=
				for crate in $crates; do
					for path in "$root/crates/$crate/specs/$file.antt" "$root/crates/$crate"/specs/*/"$file.antt"; do
						[ ! -f "$path" ] || found="$found $path"
					done
				done
				[ -n "$found" ] || echo "$1: no file $file in [$inner]"
				where="$where $found"
			done
			for name in $(echo "$defs" | tr ',' ' '); do
				cat $where 2>/dev/null | sed -n 's/ --.*//; /^ *\(abbrev\|unfoldable\|pub\|record\|data\) /{s/[:(].*//; p; }' | grep -q -w -e "$name" || echo "$1: no $name in [$inner]"
			done
		done
	done
}

# The names in backticks on pages, of letters, digits and `_`, that are no word of the code, its definitions, tools or examples.
unheard() {
	cat "$root"/crates/*/src/*.rt "$root"/crates/*/specs/*.antt "$root"/crates/*/specs/*/*.antt "$root"/bin/htl "$root"/tools/* "$root"/tests/* "$root"/.ci/run "$root"/examples/* \
		"$root"/docs/FORMATS.md "$root"/docs/LANGUAGE.md "$root"/crates.txt 2>/dev/null | tr -c 'A-Za-z0-9_' '\n' | sort -u >heard
	ls "$root"/crates/*/src "$root"/crates/*/specs "$root"/crates/htl_runs/specs/* | sed 's/\.[a-z]*$//' >>heard
	for page; do
		grep -v '^| .* | .* | .* | .* | .* |$' "$root/$page" | grep -o '`[A-Za-z_][A-Za-z0-9_:]*`' | tr -d '`' | sed 's/::/\n/g' | sort -u | grep -v -x -F -f heard | sed "s:^:$page\: :"
	done
}

# The files of src/ and specs/ that docs/MAP.md names in a row of a crate, and that aren't there.
mapped() {
	awk -F'|' '/^\| htl/ { crate = $2; gsub(/ /, "", crate); for (i = 4; i <= 5; i++) { folder = ""; n = split($i, part, /[ ,]+/); own = crate
		for (k = 1; k <= n; k++) { it = part[k]; if (it ~ /^htl_.*\/specs\//) { print it; continue } if (it !~ /\.(rt|antt)$/) continue; if (it ~ /\//) { folder = it; sub(/[^\/]*$/, "", folder) } else it = folder it; print own "/" it } } }' "$root/docs/MAP.md" >files
	while read -r it; do [ -f "$root/crates/$it" ] || echo "no $it"; done <files
	wc -l <files
	sed -n '/^| Law | specs/,/^$/p' "$root/docs/MAP.md" | grep -o '[A-Za-z]*\.antt' | sort -u | while read -r it; do ls "$root"/crates/htl_machine/specs/"$it" "$root"/crates/htl_runs/specs/*/"$it" "$root"/crates/htl_refine/specs/"$it" "$root"/crates/htl_emach/specs/"$it" "$root"/crates/htl_smach/specs/"$it" 2>/dev/null | grep -q . || echo "no $it"; done
}

# The numbers of docs/EVIDENCE.md that aren't those of the files, but for those that were measured; and that of README.md's answers.
miscounted() {
	bodies=$(ls "$root"/crates/*/must-fail/*.edit | grep -c .)
	tests=$(cat "$root"/crates/*_tests/src/*.rt "$root"/crates/*_tests/src/*/*.rt | grep -c '^ *#\[test\]')
	crates=$(grep -c : "$root/crates.txt")
	answers=$(sed -n '/pub enum Outcome/,/^}/p' "$root/crates/htl_top/src/outcome.rt" | grep -c '^    [A-Z]')
	grep -v 'measured:' "$root/docs/EVIDENCE.md" | grep -o -E '[0-9]+ (wrong bodies|test functions|crates)|edits: [0-9]+ refused' |
		grep -v -x -e "$bodies wrong bodies" -e "$tests test functions" -e "$crates crates" -e "edits: $bodies refused"
	grep -o '[0-9][0-9]* answers' "$root/README.md" "$root/docs/PROVED.md" | grep -v ":$answers answers$"
	:
}

# The links of pages to a heading that isn't there.
headless() {
	for page; do
		grep -o '](\([^)]*#[^)]*\))' "$root/$page" | sed 's/^](//; s/)$//' | sort -u | while IFS='#' read -r path heading; do
			to=$root/$page
			[ -z "$path" ] || to=$root/$(dirname "$page")/$path
			sed -n 's/^##* //p' "$to" | tr 'A-Z' 'a-z' | tr -d -c 'a-z0-9 \n_-' | tr ' ' '-' | grep -q -x -e "$heading" || echo "$page links $path#$heading"
		done
	done
}
