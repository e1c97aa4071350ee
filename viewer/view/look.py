"""The style and the script of every page, and the policy that lets a browser take these and nothing else."""

import base64
import hashlib

BARS = "".join(f".w{part}{{width:{part}%}}" for part in range(101))
STYLE = (
    """
:root{color-scheme:light dark;--back:#fff;--text:#1c1f24;--soft:#5b6470;--line:#d9dde3;--link:#0b57b7;--bar:#3f7fce;
--less:#3d8b57;--more:#c2552d;--head:#f3f5f8;--escape:#8a4b00}
@media (prefers-color-scheme:dark){:root{--back:#15181c;--text:#e4e7eb;--soft:#9aa4b0;--line:#343a42;--link:#82b4f7;--bar:#4a7fc4;
--less:#4f9e6a;--more:#d0693f;--head:#1e2329;--escape:#e0a860}}
*{box-sizing:border-box}
body{margin:0;background:var(--back);color:var(--text);font:15px/1.45 system-ui,sans-serif}
header,main{padding:.6rem 1rem;max-width:76rem;margin:auto}
header{display:flex;flex-wrap:wrap;gap:.4rem 1.2rem;align-items:center;border-bottom:1px solid var(--line)}
header form{margin-left:auto}
h1{font-size:1.3rem;margin:.6rem 0;overflow-wrap:anywhere}h2{font-size:1.05rem;margin:1.4rem 0 .4rem}
a{color:var(--link)}a:focus-visible,button:focus-visible,input:focus-visible,summary:focus-visible{outline:2px solid var(--link);
outline-offset:2px}
.wide{overflow-x:auto}.wide.cut::before{content:"The table is wider than the window: scroll it to the right.";display:block;
position:sticky;left:0;color:var(--soft);font-size:.85em}
.files{color:var(--soft);overflow-wrap:anywhere}
table{border-collapse:collapse}table.sortable{width:100%;margin-top:.4rem}
th,td{text-align:left;vertical-align:top;padding:.2rem 1rem .2rem 0;border-bottom:1px solid var(--line)}
th{background:var(--head);font-weight:600;white-space:nowrap}
th.n,td.n{text-align:right;font-variant-numeric:tabular-nums;white-space:nowrap}
td.name{overflow-wrap:break-word;min-width:9rem}
td.share{width:22%;min-width:5rem;white-space:nowrap}
td.both{width:30%;min-width:7rem}th.both{text-align:center}
th button{font:inherit;font-weight:600;color:inherit;background:none;border:0;padding:0;cursor:pointer}
th[aria-sort=ascending] button::after{content:" \\2191"}th[aria-sort=descending] button::after{content:" \\2193"}
.bar{display:inline-block;height:.75em;background:var(--bar);vertical-align:baseline;min-width:1px}
.w0{min-width:0}
.track{display:inline-block;width:calc(100% - 4.5rem);margin-right:.4rem}
.half{display:inline-block;width:50%;line-height:1}.half.less{text-align:right;border-right:1px solid var(--soft)}
.less .bar{background:var(--less)}.more .bar{background:var(--more)}
i{color:var(--escape);font-style:normal}small,.soft,.off{color:var(--soft)}
code,pre,.bits{font-family:ui-monospace,monospace;font-size:.92em}
pre{white-space:pre-wrap;overflow-wrap:anywhere;background:var(--head);padding:.6rem;margin:.4rem 0;max-height:30rem;overflow:auto}
.text{overflow-wrap:anywhere}
.pager{display:flex;flex-wrap:wrap;gap:.2rem .9rem;align-items:center;margin:.6rem 0}
input,button{font:inherit;color:inherit;background:var(--back);border:1px solid var(--soft);border-radius:3px;padding:.15rem .4rem}
input[type=number]{width:7rem}input[type=search]{width:16rem;max-width:70vw}
dl{display:grid;grid-template-columns:max-content 1fr;gap:.1rem .9rem;margin:.4rem 0}
dt{color:var(--soft)}dd{margin:0;overflow-wrap:anywhere}
ol.path{padding-left:1.2rem}ol.path li{margin:.25rem 0;overflow-wrap:anywhere}
.map{width:100%;height:auto;margin:.4rem 0}.map text{font-size:13px;fill:#fff;pointer-events:none}
.map rect{stroke:var(--back)}.map .outer{fill:var(--bar)}.map .inner{fill:var(--less)}
.suspects{list-style:none;padding:0}.suspects li{margin:.5rem 0}.suspects ol li{margin:.1rem 0}.suspects .track{width:60%}
.refusal{border-left:4px solid var(--more);padding-left:.8rem}
progress{width:100%;height:1.2rem}
@media (max-width:40rem){header,main{padding:.4rem .6rem}header form{margin-left:0}.extra,th.share,td.share{display:none}
th,td{padding-right:.5rem}table{font-size:.9em}td.name{min-width:7rem}}
"""
    + BARS
)

SCRIPT = """
"use strict";
for (const table of document.querySelectorAll("table.sortable")) {
  const body = table.tBodies[0];
  const rows = Array.from(body.rows);
  const heads = Array.from(table.tHead.rows[0].cells);
  const key = (row, place, number) => {
    const text = row.cells[place].textContent;
    return number ? Number(text.replace(/[^-0-9.]/g, "")) : text;
  };
  const sort = (head, place) => {
    const number = head.classList.contains("n");
    const before = head.getAttribute("aria-sort");
    const up = before ? before === "descending" : !number;
    heads.forEach((one) => one.removeAttribute("aria-sort"));
    head.setAttribute("aria-sort", up ? "ascending" : "descending");
    const keyed = rows.map((row) => [key(row, place, number), row]);
    keyed.sort(([one], [other]) => (one < other ? -1 : one > other ? 1 : 0) * (up ? 1 : -1));
    body.append(...keyed.map(([, row]) => row));
  };
  heads.forEach((head, place) => {
    if (head.classList.contains("plain")) return;
    const button = document.createElement("button");
    button.type = "button";
    button.append(...head.childNodes);
    head.append(button);
    button.addEventListener("click", () => sort(head, place));
  });
}
if (document.querySelector("progress")) setTimeout(() => location.reload(), 100);
document.addEventListener("keydown", (event) => {
  const field = document.querySelector("header input[type=search]");
  if (event.key !== "/" || event.ctrlKey || event.metaKey || event.altKey || !field) return;
  if (event.target.closest("input, textarea, select")) return;
  event.preventDefault();
  field.focus();
  field.select();
});
const scrolled = () => {
  for (const box of document.querySelectorAll(".wide")) box.classList.toggle("cut", box.scrollWidth > box.clientWidth);
};
addEventListener("resize", scrolled);
scrolled();
"""


def source(text):
    """The name by which the policy knows a text."""
    return "'sha256-" + base64.b64encode(hashlib.sha256(text.encode()).digest()).decode() + "'"


POLICY = "; ".join(
    (
        "default-src 'none'",
        f"script-src {source(SCRIPT)}",
        f"style-src {source(STYLE)}",
        "img-src data:",
        "form-action 'self'",
        "base-uri 'none'",
        "frame-ancestors 'none'",
    )
)
HEADERS = (
    ("Content-Security-Policy", POLICY),
    ("X-Content-Type-Options", "nosniff"),
    ("X-Frame-Options", "DENY"),
    ("Referrer-Policy", "no-referrer"),
    ("Cross-Origin-Opener-Policy", "same-origin"),
    ("Cross-Origin-Resource-Policy", "same-origin"),
    ("Cache-Control", "no-store"),
)
