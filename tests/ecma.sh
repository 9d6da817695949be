#!/bin/bash
# Runs `ecma` on files of all kinds, good, bad and missing, and compares what it writes, and its statuses, with tests/ecma.txt.
#
#     tests/ecma.sh [--write] [PROGRAM]
#
# Then it runs four commands on the texts of tests/ecma, whose outputs are beside them.
#
# The program is the proved one, where `rt ci` leaves it, or the one that is named. --write writes tests/ecma.txt anew. Status 1 if something differs.
top=$(cd "$(dirname "$0")/.." && pwd)
[ "${1-}" = --write ] && { write=1; shift; }
program=$(readlink -f "${1-$top/crates/ecma/out/ecma}")
room=$(mktemp -d)
trap 'rm -rf "$room"' EXIT
cd "$room" || exit 2
ulimit -Ss 8192

printf 'let a = 1\nif(a==b){eval(c)} // d\n' >a.js
printf 'x = +\n' >bad.js
printf 'import a from "b"\nexport let c = a\n' >module.js
printf 'import a from "b"\nlet c = ;\n' >bad_module.js
printf 'return 1\n' >returns.js
printf 'for await (a of await b) c\n' >awaits.js
printf 'import a from "b"\n' >imports.cjs
: >empty.js
printf '\xef\xbb\xbflet a = @\n' >mark.js
printf '\xef\xbb\xbflet  a\n' >good_mark.js
printf 'let a\r\nlet   b /*\r\n*/\r\n' >crlf.js
printf 'a\nb \xff\n' >not_utf8.js
printf '\x7fELF\0\xff\n' >binary.js
printf '\xff\xfel\0e\0' >utf16.js
printf '#!/usr/bin/env node\nlet a\n' >hashbang.js
printf 'var é = "ü" + ;\n' >letters.js
printf 'f({\n  a: [1, 2\n})\n' >brackets.js
printf '{ f(1 }\n' >wrong_bracket.js
printf 'a +' >ends.js
{ printf 'x = '; printf '(%.0s' {1..3000}; printf 'a'; printf ')%.0s' {1..3000}; } >deep.js
printf 'let a, b\nfunction f(a, ...b) { let a }\nlet b; break; a: a: ;\n' >twice.js
printf 'export default 1\nexport default 2\nexport { c as d }\n' >exports.mjs
{ for n in {1..23}; do printf 'let a%d; let a%d\n' $n $n; done; } >many.js
printf '"use strict"\nlet a\nlet a\ndelete a\n' >recorded.js
printf 'function f() { let x = }\nclass A { m() { a b } }\nvar q = (1 2)\nlet r = () => { ] }\n' >bodies.js
printf 'function f() { let x = ; }\nclass A { m() { a b } }\nvar q = (1 2)\n' >paired.js
printf 'let x: number = 1\n' >typed.js
printf 'interface A { b: c }\n' >interface.js
printf 'enum A { B }\n' >enum.js
printf 'let a = <div/>\n' >tag.js
printf '@dec class A {}\n' >decorated.js
printf 'a <!-- b\n--> c\nif (a-->b) c\n/*\n*/ --> d\n' >html.js
printf '({cl\\u0061ss: 1, f\\u006fr() {}}).\\u0069f\n' >escaped.js
printf 'v\\u0061r a = 1\n' >escaped_var.js
printf '// prettier-ignore\nlet a = [ 1,0,\n          0,1 ]\nlet b = [ 1,0 ]\nclass C {\n  /* prettier-ignore */\n  d( ) { }\n}\nlet e = {\n  // prettier-ignore\n  f : [1,0],\n  g : [1,0]}\n' >ignored.js
printf 'const { a: { b }, c } = d\nconst { eeeeeeeeeeeeeeeeeeee, ffffffffffffffffffffffff, ggggggggggggggg } = h(), i = 1\n' >patterns.js
printf '(a, [b], {c = 1}) => d é\n' >expr.txt
printf '[a, {b = 1}, ...c]\n' >pat.txt
printf 'delete é + 010\n' >strict.txt
printf 'await a + yield\n' >words.txt
printf 'Hello {{ user.name }}! {{ a + b }}\n' >good.txt
printf 'Hello {{ user. }}! {{ a b }}\n' >bad.txt
mkdir -p folder/node_modules/x folder/.git folder/sub
cp a.js folder/z.js; cp bad.js folder/sub/b.mjs; cp a.js folder/node_modules/x/; cp a.js folder/.git/; ln -s ../a.js folder/link.js; ln -s .. folder/up

# Runs the words after `$`, and shows what was written and the status.
show() {
    echo "\$ $*"
    "$@" 2>&1
    echo "[status $?]"
}
ecma() { "$program" "$@"; }

all() {
    show ecma
    show ecma --version
    show ecma --help
    for command in check estree expr format lint lsp outline pat scopes tokens template; do show ecma $command --help; done
    show ecma help lint
    show ecma chek a.js
    show ecma check --foo a.js
    show ecma check --loc a.js
    show ecma --json check a.js
    show ecma estree --rang a.js
    show ecma check --script --module a.js
    show ecma format --check --write a.js
    show ecma format --width=3 a.js
    show ecma format --indent a.js --check
    show ecma format --commas=some a.js
    show ecma format --write
    show ecma format --write -
    show ecma check $'\xff'
    show ecma check a.js module.js returns.js awaits.js empty.js good_mark.js crlf.js hashbang.js
    for file in bad.js bad_module.js imports.cjs mark.js not_utf8.js binary.js utf16.js letters.js brackets.js wrong_bracket.js ends.js missing.js; do
        show ecma check $file
    done
    for file in recorded bodies paired typed interface enum tag decorated escaped_var; do show ecma check $file.js; done
    show ecma check html.js escaped.js
    show ecma check --module html.js
    show ecma tokens html.js
    show ecma estree --comments html.js
    show ecma format html.js
    show ecma estree escaped.js
    show ecma lint --max=1 a.js
    show ecma check deep.js | cut -c 1-100
    show ecma check --module returns.js
    show ecma check --script module.js returns.js
    show ecma check --json bad.js not_utf8.js letters.js
    show ecma check folder
    show ecma check -- a.js -
    echo 'a b' | show ecma check
    echo 'let await; await b' | show ecma check
    echo 'a b' | show ecma check a.js -
    show ecma check a.js missing.js bad.js
    show ecma check /dev/null
    show ecma check /dev/zero
    show ecma check twice.js exports.mjs
    show ecma check --json twice.js
    show ecma check many.js | tail -n 8
    show ecma check --max=2 many.js
    show ecma check --json --max=2 many.js
    show ecma check --max=0 many.js
    show ecma lint a.js
    show ecma lint --json a.js
    show ecma lint folder
    show ecma lint twice.js
    show ecma outline a.js module.js
    show ecma scopes a.js
    show ecma tokens a.js
    show ecma estree --loc --range --comments a.js
    show ecma estree hashbang.js bad.js empty.js
    show ecma estree a.js twice.js
    show ecma estree --pretty --tokens returns.js
    echo 'a?.b; `c${/d/g}e${f}`; class g { #h = null }' | show ecma estree --tokens
    show ecma expr expr.txt
    show ecma pat pat.txt
    show ecma expr pat.txt expr.txt
    show ecma expr --strict strict.txt
    show ecma expr --json --strict strict.txt
    show ecma expr --async --generator words.txt
    show ecma expr --module --pedantic words.txt
    show ecma pat bad.js
    show ecma expr deep.js 2>&1 | cut -c 1-100
    show ecma template good.txt
    show ecma template bad.txt
    show ecma format a.js
    show ecma format --indent=4 a.js
    show ecma format --commas=none --width=40 patterns.js
    show ecma format patterns.js
    show ecma format ignored.js
    show ecma format bad.js
    show ecma format twice.js
    echo 'f( a,b )' | show ecma format --expr
    show ecma format --check a.js good_mark.js crlf.js empty.js bad.js
    cp a.js kept.js && chmod 640 kept.js && ln -s kept.js to_kept.js && cp a.js read_only.js && chmod 444 read_only.js
    cp a.js left.js && touch left.js.ecma-new && show ecma format --write left.js && rm left.js.ecma-new
    show ecma format --write to_kept.js good_mark.js crlf.js bad.js read_only.js
    show stat -c '%A %F %N' kept.js to_kept.js
    show ecma format --check to_kept.js good_mark.js crlf.js
    show od -c good_mark.js
    show od -c crlf.js
    echo '$ ecma estree a.js >/dev/full' && ecma estree a.js 2>&1 >/dev/full; echo "[status $?]"
    echo '$ ecma estree a.js >&-' && ecma estree a.js 2>&1 >&-; echo "[status $?]"
    echo '$ ecma check <&-' && ecma check 2>&1 <&-; echo "[status $?]"
    echo '$ ecma check <folder' && ecma check 2>&1 <folder; echo "[status $?]"
    ls -A
}

all >"$room.txt"
if [ "${write-}" ]; then
    cp "$room.txt" "$top/tests/ecma.txt"
fi
diff "$top/tests/ecma.txt" "$room.txt"
status=$?
rm -f "$room.txt"
for command in 'format --script' 'outline --script' 'scopes --module' 'template --module'; do
    texts=$top/tests/ecma/${command% *}
    "$program" $command <"$texts.in" | diff "$texts.out" - || status=1
done
exit $status
