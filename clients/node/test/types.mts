// What TypeScript has to take and to refuse. tools/check-clients has it checked; it is never run.
import { Core as PageCore, Refused, World, compile } from "../../web/index.js";
import { Core, Ended } from "../index.js";

export async function typed(signal: AbortSignal): Promise<unknown[]> {
  const core = new PageCore({ worker: false });
  const length: number = await core.open({ page: "", sites: 2 }, { signal });
  const taken = await core.take({ site: 1 });
  const accepted: number = "accepted" in taken ? taken.accepted : taken.dropped;
  await core.revoke({ entry: 1, live: true });
  await core.apply({ exact: true, ops: [{ retain: 1 }, { remove: 0, insert: ["a", ["b", [["i", []]]], { open: "p" }] }] });
  // @ts-expect-error: no such member
  await core.wrap({ from: 0, to: 1, wrapOuter: [] });
  // @ts-expect-error: no such direction
  await core.near({ at: 0, dir: "up" });
  // @ts-expect-error: a member is missing
  await core.text({ at: 0 });
  const other = new Core({ program: true });
  const why = await other.ended;
  const status: number | string | null = why instanceof Ended ? why.status : why.message;
  await other[Symbol.asyncDispose]();
  const reply: string = new World(await compile()).line("{");
  return [length, accepted, status, reply, Refused];
}
