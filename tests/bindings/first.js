const ecma = require('ecma');
const [declared] = ecma.parse('let total = 1 + 2').body;
console.log(declared.declarations[0].id.name);
for (const { line, column, message } of ecma.check('let a; let a; break')) {
  console.log(`${line}:${column} ${message}`);
}
