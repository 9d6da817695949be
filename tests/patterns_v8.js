'use strict';
// Compares which patterns of regular expressions `ecma check` takes with what V8 takes.
//
//     node tests/patterns_v8.js PROGRAM [COUNT] [SEED]
//
// COUNT patterns (1,000,000 if it isn't given) are put together at random from parts, a third each without a flag, with `u` and with `v`. Those in
// which a slash or the end of the line would end the expression itself are left out. Prints how many are refused by each, and those on which the two
// don't agree, by what is said of them; status 1 if there are any.
const fs = require('fs');
const os = require('os');
const path = require('path');
const { spawnSync } = require('child_process');

const [program, count = '1000000', seed = '11'] = process.argv.slice(2);
const MODIFIERS = ['(?i:', '(?-i:', '(?i-i:'];
const PARTS = [
    'a', 'b', '1', '0', '-', '^', '$', '.', '*', '+', '?', '{', '}', '{1}', '{1,}', '{2,1}', '{1,2}', '{02,2}', '(', ')', '(?:', '(?=', '(?!', '(?<=',
    '(?<!', '(?<a>', '(?<b>', '(?<\\u0061>', '(?', '[', ']', '[^', '|', ',', '\\d', '\\D', '\\w', '\\b', '\\B', '\\c', '\\ca',
    '\\c1', '\\x', '\\x41', '\\u', '\\u0041', '\\u{41}', '\\u{110000}', '\\ud83d\\ude00', '\\0', '\\1', '\\2', '\\8', '\\01', '\\k', '\\k<a>', '\\k<c>',
    '\\p{L}', '\\P{Lu}', '\\p{Script=Greek}', '\\p{Foo}', '\\p', '\\p{RGI_Emoji}', '\\P{RGI_Emoji}', '\\-', '\\]', '\\.', '\\/', '\\a', '\\_', '&&', '--',
    '&', '~', '!!', '\\q{a|bc}', '\\q{a}', '\\q{', '😀', 'é', '=', '<', '>', ':', '!', '\\$',
];
// Not each V8 knows groups that change flags.
if (saysV8({ pattern: '(?i:)', flags: '' }) === null) PARTS.push(...MODIFIERS);
const FLAGS = ['', 'u', 'v'];
const AT_ONCE = 5000;

let state = Number(seed);
/** A number below another one. */
function below(n) {
    state = (Math.imul(state, 1664525) + 1013904223) >>> 0;
    return Math.floor(state / 4294967296 * n);
}

/** Whether the pattern ends with the slash that is put after it. */
function isWhole(pattern) {
    let inClass = false;
    for (let at = 0; at < pattern.length; at++) {
        const sign = pattern[at];
        if (sign === '\\') {
            at++;
            if (at >= pattern.length) return false;
        } else if (sign === '[') inClass = true;
        else if (sign === ']') inClass = false;
        else if (sign === '/' && !inClass) return false;
    }
    return !inClass && pattern !== '' && pattern[0] !== '*' && pattern[0] !== '/';
}

function makePattern() {
    for (;;) {
        let pattern = '';
        for (let left = 1 + below(8); left > 0; left--) pattern += PARTS[below(PARTS.length)];
        if (isWhole(pattern)) return { pattern, flags: FLAGS[below(FLAGS.length)] };
    }
}

/** What `ecma check` says of each line that it refuses. */
function toldOf(file, patterns) {
    fs.writeFileSync(file, patterns.map(({ pattern, flags }) => `x = /${pattern}/${flags};`).join('\n') + '\n');
    const run = spawnSync(program, ['check', '--max', '1000000', '--script', file], { encoding: 'utf8', maxBuffer: 1 << 28 });
    const told = new Map();
    for (const line of (run.stdout + run.stderr).split('\n')) {
        if (!line.startsWith(file + ':')) continue;
        const [number, , ...message] = line.slice(file.length + 1).split(':');
        if (!told.has(Number(number))) told.set(Number(number), message.join(':').trim());
    }
    return told;
}

function saysV8({ pattern, flags }) {
    try {
        new RegExp(pattern, flags);
        return null;
    } catch (error) {
        return error.message.replace(/.*: /, '');
    }
}

const folder = fs.mkdtempSync(path.join(os.tmpdir(), 'patterns-'));
const file = path.join(folder, 'patterns.js');
const apart = new Map();
let refused = 0;
let refusedByV8 = 0;
for (let left = Number(count); left > 0; left -= AT_ONCE) {
    const patterns = Array.from({ length: Math.min(left, AT_ONCE) }, makePattern);
    const told = toldOf(file, patterns);
    patterns.forEach((one, index) => {
        const here = told.get(index + 1) ?? null;
        const there = saysV8(one);
        refused += here !== null;
        refusedByV8 += there !== null;
        if ((here === null) === (there === null)) return;
        const key = `${here ?? 'taken'} / V8: ${there ?? 'taken'}`;
        apart.set(key, [...(apart.get(key) ?? []), `/${one.pattern}/${one.flags}`]);
    });
}
fs.rmSync(folder, { recursive: true });
const differ = [...apart.values()].flat().length;
console.log(`${count} patterns: ${refused} refused, ${refusedByV8} by V8, ${differ} apart`);
for (const [key, patterns] of apart) console.log(patterns.length, key, patterns.sort((a, b) => a.length - b.length).slice(0, 4).join('   '));
process.exitCode = differ ? 1 : 0;
