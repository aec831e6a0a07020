# Of svg.awk and report.awk: how the lanes of pictures look, in light and in dark.

function style() {
	print "<style>"
	print ".run text{font:10px ui-monospace,Menlo,Consolas,\"DejaVu Sans Mono\",monospace;fill:#1f2328}.run .title{font-size:13px}.run .name{text-anchor:end}"
	print ".run .axis{fill:#59636e}.run .back{fill:#fff}.run .grid{stroke:#d8dee4;stroke-width:.7;fill:none}.run .step{stroke:#0550ae;stroke-width:1.6;fill:none}"
	print ".run .dot{fill:#0550ae}.run .slice{fill:#1a7f37;stroke:#fff;stroke-width:.8}.run .slice.refused{fill:#ffe5e3;stroke:#b3261e;stroke-width:2;stroke-dasharray:3 1.5}"
	print ".run .done{stroke:#b3261e;fill:#b3261e;stroke-width:1.2}.run .mode{stroke:#fff;stroke-width:.8}.run .cross{stroke:#b3261e;stroke-width:2.4;fill:none}"
	print ".run .step.sensed{stroke:#953800;stroke-dasharray:4 2}.run .dot.sensed{fill:#953800}.run .window{stroke:#59636e;stroke-width:1.2;fill:none}"
	print ".run .window.gone{stroke:#b3261e;stroke-width:2.6}.run .window.scarce{stroke:#b3261e;stroke-width:1.8;stroke-dasharray:4 2}"
	print ".run .round{stroke:#59636e;stroke-width:.8;fill:none}.run .frame{stroke:#59636e;stroke-width:1.2;stroke-dasharray:6 3;fill:none}"
	print ".run .left{stroke:#b3261e;stroke-width:1;stroke-dasharray:1.5 2.5;fill:none}.run .ring{stroke:#b3261e;stroke-width:1.2;fill:none}"
	print ".run .fault{fill:#b3261e;font-weight:bold;stroke:#fff;stroke-width:3;paint-order:stroke}.run .least{font-weight:bold}.run .untold{fill:none;stroke:#59636e;stroke-dasharray:1 3}"
	print ".run .h0{fill:#cfe3ff}.run .h1{fill:#ffe2b8}.run .h2{fill:#d3f2d6}.run .h3{fill:#eedcff}.run .h4{fill:#ffd9dd}.run .h5{fill:#d2f0f2}"
	print "@media screen and (prefers-color-scheme:dark){.run text{fill:#e6edf3}.run .axis{fill:#9198a1}.run .back{fill:#0d1117}.run .grid{stroke:#30363d}"
	print ".run .step{stroke:#79c0ff}.run .dot{fill:#79c0ff}.run .slice{fill:#3fb950;stroke:#0d1117}.run .slice.refused{fill:#4a1512;stroke:#ff8a80}.run .mode{stroke:#0d1117}"
	print ".run .done{stroke:#ff8a80;fill:#ff8a80}.run .cross,.run .ring,.run .left,.run .window.gone,.run .window.scarce{stroke:#ff8a80}"
	print ".run .step.sensed{stroke:#ffa657}.run .dot.sensed{fill:#ffa657}.run .window,.run .round,.run .frame,.run .untold{stroke:#9198a1}.run .fault{fill:#ff8a80;stroke:#0d1117}"
	print ".run .window.gone,.run .window.scarce{stroke:#ff8a80}"
	print ".run .h0{fill:#1c3f6e}.run .h1{fill:#6b4310}.run .h2{fill:#1d5a2a}.run .h3{fill:#51317a}.run .h4{fill:#7a2a33}.run .h5{fill:#155e63}}"
	print "</style>"
}
