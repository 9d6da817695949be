// node tests/peers.js acorn|v8 MODE FILE: the processor milliseconds in which acorn parses the text of the file, or V8 compiles it, once warm.
// node tests/peers.js wrap MODE FILE OUT: writes the text as a script in which its mode holds.
const fs = require('fs'), vm = require('vm');

const [tool, mode, file, out] = process.argv.slice(2);
const text = fs.readFileSync(file, 'utf8').replace(/import\.meta/g, 'import_meta');
const heads = {async: '(async function(){return (\n', generator: '(function*(){return (\n', script: '(\n'};
const head = heads[mode] || '(function(){"use strict";return (\n';
const script = head + text + (mode === 'script' ? '\n)' : '\n)})');

// The milliseconds of the third of three runs.
function timed(run) {
  let spent;
  for (let turn = 0; turn < 3; turn++) {
    const begin = process.cpuUsage();
    run(turn);
    const {user, system} = process.cpuUsage(begin);
    spent = (user + system) / 1000;
  }
  console.log(spent);
}

if (tool === 'wrap') fs.writeFileSync(out, script);
else if (tool === 'v8') timed(turn => new vm.Script(`/*${turn}*/` + script));
else {
  const acorn = require('acorn');
  timed(() => acorn.parse(script, {ecmaVersion: 2022}));
}
