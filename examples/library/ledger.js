// Answers a script from standard input, as `ocpp_board replay` does, by koffi (npm install koffi):
//     node ledger.js < first.script
const koffi = require('koffi');
const library = koffi.load('libocpp_ledger.so.0');
const answer = library.func(
  'uint32_t ocpp_ledger_answer(const uint8_t *script, size_t length, uint8_t *text, size_t room, _Out_ size_t *used, _Inout_ uint64_t *work)',
);

const script = require('fs').readFileSync(0);
const used = [0], work = [0];
let text = Buffer.alloc(64 * script.length + 4096);
let status = answer(script, script.length, text, text.length, used, work);
if (status === 1) { // TOO_SMALL: `used` is how many bytes the text has.
  text = Buffer.alloc(used[0]);
  status = answer(script, script.length, text, text.length, used, work);
}
if (status !== 0) process.exit(status);
process.stdout.write(text.subarray(0, used[0]));
