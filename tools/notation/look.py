"""The look of a picture: its colours, patterns and letters, and what a page does when it is tapped.

No colour stands alone: marks have shapes and numbers, refused ages are hatched, and states have patterns
and names.
"""

STYLE = """
.cell, .whole { font: 10px system-ui, "Segoe UI", "DejaVu Sans", sans-serif; fill: #222 }
.heading { font-size: 15px; font-weight: bold }
.time { text-anchor: middle }
.time.first { text-anchor: start }
.axis, .tick, .pause line { stroke: #666 }
.foot { stroke: #999 }
.lane { fill: #555; font-size: 9px }
.lane, .limit-name, .flag-name { paint-order: stroke; stroke: #fff; stroke-width: 3 }
.limit { stroke: #a00; stroke-dasharray: 5 3 }
.limit-name { fill: #a00; font-size: 9px }
.band { stroke: #444; stroke-width: .7; fill: #fff }
.band.none { stroke-dasharray: 2 2 }
.band.starting { fill: url(#stripes) }
.band.up { fill: #bfe3d4 }
.state { text-anchor: middle; font-weight: bold }
.silence { fill: #c9d7e8 }
.waiting { fill: url(#dots) }
.slope { stroke: #44648c; fill: none }
.flag { stroke-width: 2 }
.flag.up { stroke: #00664a }
.flag.down { stroke: #a00; stroke-dasharray: 3 2 }
.flag-name { font-weight: bold }
.flag-name.up { fill: #00664a }
.flag-name.down { fill: #a00 }
.stalk { stroke: #bbb }
.mark { stroke: #222 }
.ring { stroke: #222; fill: none }
.sign { text-anchor: middle; font-weight: bold }
.sent { fill: #6c8ebf; stroke: #223; stroke-width: .7 }
.bar { fill: #8fc9b1; stroke: #00664a; stroke-width: .8 }
.torn { fill: #fff }
.age-name { text-anchor: middle; font-size: 8.5px }
.a0 .mark { fill: #dcf1e8 }
.a1 .mark, .a2 .mark, .a3 .mark, .a4 .mark, .a5 .mark { fill: #ddd }
.a6 .mark, .a7 .mark { fill: #a5d3ef }
.a8 .mark { fill: #e3a6c6 }
.a9 .mark { fill: #f0ac3c }
.a10 .mark { fill: #8a3b78 }
.a11 .mark { fill: #c43c17 }
.a11 .bar { fill: url(#hatch); stroke: #a3260b }
.a11 .age-name { font-weight: bold; fill: #a3260b }
.a12 .mark, .bad .mark { fill: #222 }
.a13 .mark { fill: #f4e663 }
.a10 .sign, .a11 .sign, .a12 .sign, .bad .sign { fill: #fff }
.nothing .mark, .other .mark { fill: #fff; stroke-dasharray: 2 2 }
.differs .mark { stroke: #d00; stroke-width: 3 }
"""
PATTERNS = """<defs>
<pattern id="stripes" width="6" height="6" patternUnits="userSpaceOnUse" patternTransform="rotate(45)">
<rect width="6" height="6" fill="#fff"/><rect width="2" height="6" fill="#d9c48f"/></pattern>
<pattern id="hatch" width="4" height="4" patternUnits="userSpaceOnUse" patternTransform="rotate(45)">
<rect width="4" height="4" fill="#fff"/><rect width="2" height="4" fill="#c43c17"/></pattern>
<pattern id="dots" width="5" height="5" patternUnits="userSpaceOnUse">
<rect width="5" height="5" fill="#fff"/><circle cx="2" cy="2" r="1" fill="#b49a55"/></pattern>
</defs>
"""
PAGE_STYLE = """
html { color-scheme: light }
body { font: 15px/1.45 system-ui, "Segoe UI", "DejaVu Sans", sans-serif; color: #222; background: #fff }
body { margin: 0 8px 9em }
h1 { font-size: 1.3em; margin: .6em 0 .2em }
h2 { font-size: 1.1em; margin: 1.2em 0 .4em }
p { margin: .3em 0 }
a { color: #0050d0 }
.cells { display: flex; flex-wrap: wrap; row-gap: 14px }
.cell { flex: none; overflow: visible }
.record { cursor: pointer; outline: none }
.record:hover .mark, .record:focus .mark, .record.chosen .mark { stroke: #0050d0; stroke-width: 3 }
.legend { display: flex; flex-wrap: wrap; gap: 2px 18px; list-style: none; padding: 0; margin: .6em 0 }
.legend li { display: flex; align-items: center; gap: 5px }
.legend svg { width: 26px; height: 26px }
.legend, table, #told { font-size: 13px }
table { border-collapse: collapse }
td, th { text-align: left; vertical-align: top; padding: 3px 10px 3px 0; border-bottom: 1px solid #ddd }
td { overflow-wrap: anywhere }
td:nth-child(2) { white-space: nowrap }
#told { position: fixed; left: 0; right: 0; bottom: 0; margin: 0; padding: 8px 10px; background: #fffbe8 }
#told { border-top: 2px solid #222; white-space: pre-wrap; overflow-wrap: anywhere }
#told { max-height: 40vh; overflow: auto }
@media (max-width: 600px) {
  table, tbody, tr, td { display: block }
  thead { display: none }
  td { border: 0; padding: 0 }
  tr { border-bottom: 1px solid #ddd; padding: 4px 0 }
}
@media print {
  #told { display: none }
  body { margin: 0 }
  body, .legend, table { font-size: 11px }
  .cell { break-inside: avoid }
  * { print-color-adjust: exact; -webkit-print-color-adjust: exact }
}
"""
SCRIPT = """
const told = document.getElementById("told");
function show(record) {
  for (const other of document.querySelectorAll(".chosen")) other.classList.remove("chosen");
  record.classList.add("chosen");
  told.textContent = record.querySelector("title").textContent;
}
function meant(target) {
  const link = target.closest("td a");
  return link ? document.querySelector(link.getAttribute("href")) : target.closest(".record");
}
for (const name of ["click", "focusin"]) document.addEventListener(name, event => {
  const record = meant(event.target);
  if (record) show(record);
});
"""
