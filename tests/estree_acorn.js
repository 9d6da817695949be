// Compares the trees that `ecma estree` writes with those of the parser acorn (Debian's package node-acorn). Run by hand.
//
//     node tests/estree_acorn.js PROGRAM [--extras] FOLDER|FILE ..     each file with an ending .js, .mjs or .cjs
//     node tests/estree_acorn.js --expected                 prints what acorn makes of the files in crates/ecma/args
//
// A file is read as a script; if acorn refuses that, as the body of a function, as Node.js reads CommonJS; and if it refuses that too, as a module. A
// file that ends with .mjs is a module. PROGRAM is a built `ecma`. What it writes has to be the text that JSON.stringify makes of acorn's tree, or an equal value: then the
// order of fields is another. With --extras the trees have places, lines and comments (--loc --range --comments). What acorn refuses, it has to refuse. Prints how many files there are of each kind, and the first differences.
'use strict';
const fs = require('fs');
const path = require('path');
const { spawnSync } = require('child_process');
const { isDeepStrictEqual } = require('util');
const acorn = require('/usr/share/nodejs/acorn');

const SHOWN = 20;

const OPTIONS = {
    script: { sourceType: 'script' },
    commonjs: { sourceType: 'script', allowReturnOutsideFunction: true },
    module: { sourceType: 'module' },
};

// The JSON of acorn's tree. A big integer is no value of JSON's.
function json(text, goal, hasExtras = false) {
    const comments = [];
    const extras = hasExtras ? { locations: true, ranges: true, onComment: comments } : {};
    const tree = acorn.parse(text, { ecmaVersion: 2024, ...OPTIONS[goal], ...extras });
    if (hasExtras) tree.comments = comments;
    return JSON.stringify(tree, (_, value) => (typeof value === 'bigint' ? null : value));
}

// The goal by which acorn reads the text, and the JSON; or the last goal, and what acorn says.
function wanted(text, goals, hasExtras) {
    let found;
    for (const goal of goals) {
        try {
            return { goal, json: json(text, goal, hasExtras) };
        } catch (error) {
            if (!(error instanceof SyntaxError)) throw error;
            found ??= { goal, fault: error.message };
        }
    }
    return found;
}

function* files(name) {
    if (!fs.statSync(name).isDirectory()) {
        yield name;
        return;
    }
    for (const entry of fs.readdirSync(name, { withFileTypes: true }).sort((a, b) => (a.name < b.name ? -1 : 1))) {
        const inner = path.join(name, entry.name);
        if (entry.isDirectory()) yield* files(inner);
        else if (entry.isFile() && /\.[cm]?js$/.test(entry.name)) yield inner;
    }
}

// Where two texts first differ, and what is around that.
function difference(want, got) {
    let at = 0;
    while (at < want.length && want[at] === got[at]) at += 1;
    const from = Math.max(0, at - 120);
    return `    acorn:  ${want.slice(from, at + 80)}\n    ecma:   ${got.slice(from, at + 80)}`;
}

function compare(program, file, hasExtras) {
    const text = fs.readFileSync(file, 'utf8');
    const want = wanted(text, file.endsWith('.mjs') ? ['module'] : ['script', 'commonjs', 'module'], hasExtras);
    const extras = hasExtras ? ['--loc', '--range', '--comments'] : [];
    const run = spawnSync(program, ['estree', `--${want.goal}`, ...extras, file], { encoding: 'utf8', maxBuffer: 1 << 30 });
    const said = run.stderr.split('\n')[0];
    if (run.status > 1 || run.signal) return ['failed', `${run.status} ${run.signal} ${said}`];
    if (want.fault !== undefined) return run.status === 1 ? ['refused by both'] : ['refused by acorn alone', want.fault];
    if (run.status === 1) return ['refused by ecma alone', said];
    const got = run.stdout.replace(/\n$/, '');
    if (got === want.json) return ['the same'];
    try {
        if (isDeepStrictEqual(JSON.parse(got), JSON.parse(want.json))) return ['equal'];
    } catch (error) {
        return ['no JSON', error.message];
    }
    return ['different', difference(want.json, got)];
}

function main(program, words) {
    const names = words.filter(word => word !== '--extras');
    const hasExtras = names.length < words.length;
    const counts = new Map();
    let shown = 0;
    for (const name of names) {
        for (const file of files(name)) {
            const [kind, note] = compare(program, file, hasExtras);
            counts.set(kind, (counts.get(kind) ?? 0) + 1);
            if (note !== undefined && shown < SHOWN) {
                shown += 1;
                console.log(`${file}: ${kind}\n${note}`);
            }
        }
    }
    for (const [kind, count] of counts) console.log(`${kind}: ${count}`);
}

// What acorn makes of the files that the arguments of the crate name, each by the goal that its name says.
function expected() {
    const crate = path.join(__dirname, '../crates/ecma');
    for (const name of fs.readFileSync(path.join(crate, 'args'), 'utf8').trim().split('\n').slice(1)) {
        const goal = name.endsWith('.mjs') ? 'module' : name.endsWith('.cjs') ? 'commonjs' : 'script';
        console.log(json(fs.readFileSync(path.join(crate, 'data', name), 'utf8'), goal));
    }
}

const [program, ...names] = process.argv.slice(2);
if (program === '--expected') expected();
else main(program, names);
