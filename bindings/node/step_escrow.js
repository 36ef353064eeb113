// Steps the escrow to its end by one `marlowe serve`: node step_escrow.js PROGRAM WORDS.. (as `marlowe serve`).
const { spawn } = require("node:child_process");
const { readFileSync } = require("node:fs");
const { join } = require("node:path");
const { createInterface } = require("node:readline");

const examples = join(__dirname, "../../crates/rows_commands/data/examples");
const file = (folder, name) => JSON.parse(readFileSync(join(examples, folder, `${name}.json`), "utf8"));
const engine = spawn(process.argv[2], process.argv.slice(3), { stdio: ["pipe", "pipe", "inherit"] });
const answers = createInterface({ input: engine.stdout })[Symbol.asyncIterator]();

async function ask(id, request) {
  engine.stdin.write(JSON.stringify({ id, ...request }) + "\n");
  const answer = JSON.parse((await answers.next()).value);
  if (answer.id !== id || answer.refused) throw new Error(JSON.stringify(answer));
  return answer.ok;
}

async function main() {
  const steps = ["escrow_1_the_buyer_deposits", "escrow_2_the_buyer_releases"];
  await ask(0, { define: { escrow: file(steps[0], "contract") } });
  let { contract, state, payments } = { contract: { name: "escrow" }, state: file(steps[0], "state") };
  for (const [index, folder] of steps.entries()) {
    ({ contract, state, payments } = await ask(index + 1, { run: { contract, state, transaction: file(folder, "transaction") } }));
    console.log(JSON.stringify(payments));
  }
  console.log(JSON.stringify(contract));
  engine.stdin.end();
}
main();
