// Requests over one schema, answered by one process that stays: `sql_tool session` over a pipe.
//
//     node examples/session.mjs ./sql_tool < examples/filter.json     writes the lines of `build`, a request at a time
import { spawn } from "node:child_process";
import { once } from "node:events";
import { readFileSync } from "node:fs";
import { pathToFileURL } from "node:url";

// The lines of a stream, as bytes. They end at byte 10 alone, where `readline` would also end one at what Unicode calls a line separator.
async function* linesOf(stream) {
  let rest = Buffer.alloc(0);
  for await (const chunk of stream) {
    rest = Buffer.concat([rest, chunk]);
    for (let end; (end = rest.indexOf(10)) >= 0; rest = rest.subarray(end + 1)) yield rest.subarray(0, end);
  }
}

/** A process that answers requests over a schema, one call after the other: wait for an answer before the next question. */
export class Session {
  static async start(program, schema) {
    const session = new Session();
    session.process = spawn(program, ["session"], { stdio: ["pipe", "pipe", "inherit"] });
    session.lines = linesOf(session.process.stdout);
    await session.answer({ schema, requests: [] });
    return session;
  }

  /** The text of a line for each request. JSON.parse gives its members; a whole number above 2^53 is then not exact. */
  ask(requests) {
    return this.answer({ schema: { tables: [] }, requests });
  }

  async answer(document) {
    this.process.stdin.write(JSON.stringify(document) + "\n");
    const lines = [];
    for (;;) {
      const { value, done } = await this.lines.next();
      if (done) throw new Error("the process has ended");
      if (value.length === 0) break; // an empty line ends the answer
      lines.push(value.toString());
    }
    const { error } = lines.length > 0 ? JSON.parse(lines.at(-1)) : {};
    if (error) throw new Error(error, { cause: lines.slice(0, -1) });
    return lines;
  }

  async close() {
    this.process.stdin.end();
    const [status] = await once(this.process, "close");
    return status;
  }
}

if (import.meta.url === pathToFileURL(process.argv[1]).href) {
  const whole = JSON.parse(readFileSync(0));
  const session = await Session.start(process.argv[2], whole.schema);
  for (const request of whole.requests) for (const line of await session.ask([request])) console.log(line);
  process.exitCode = await session.close();
}
