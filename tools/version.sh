# `--version`: the toolchain that is there, and what stands of the program.
of_proof() { echo "with $(of_stamp toolchain), by $(of_stamp by)"; }

version() {
	if command -v rt >/dev/null 2>&1; then
		echo "htl, for the toolchain $(rt version)"
	else
		echo "htl; the command rt of the Rattle kit is not there"
	fi
	case $(state) in
	none) echo "no proved program stands; bin/htl --prove makes it" ;;
	foreign) echo "crates/htl/out/htl isn't the program that was proved here, so it isn't run; bin/htl --prove makes that" ;;
	stale) echo "sources changed since crates/htl/out/htl was proved, $(of_proof); bin/htl --prove makes a new one" ;;
	proved) echo "the program crates/htl/out/htl is proved, $(of_proof)" ;;
	esac
}

version 2>/dev/null || fail "the output failed"
exit 0
