# What the stand-in for rt does at `rt try .. --cases FOLDER`: each file of the folder is the input of a run of the stand-in for the
# program, in a folder that has the files of `--data`.
lies=$(mktemp -d)
while [ $# -gt 0 ]; do
	case $1 in
	--data) cp "${2#*=}" "$lies/${2%%=*}" ;;
	--cases) cases=$2 ;;
	esac
	shift 2
done
for it in "$cases"/*; do
	case $it in *.args) continue ;; esac
	(cd "$lies" && sh "$root/tests/fake-htl" $(cat "$it.args") <"$it" >"$calls.out")
	status=$?
	echo "== ${it##*/}"
	cat "$calls.out"
	case $(tail -c 1 "$calls.out" | od -An -tu1) in '' | *' 10') ;; *) echo ;; esac
	echo "case=${it##*/} run=ended status=$status runners=1 proved=no" >&2
done
rm -r "$lies"
echo "cases=ended proved=no" >&2
