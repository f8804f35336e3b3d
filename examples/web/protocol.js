/**
 * Push and pull, version 1. Both give `{ kind, .. }`:
 *
 * - `ok`, with the `answer`;
 * - `unreachable`: nothing that the server itself said has come;
 * - `key`: no account has the key (401);
 * - `anew`: the server has ended this client group (`ClientStateNotFound`);
 * - `version`: the server does not speak this version of the protocol or of the rows (`VersionNotSupported`);
 * - `refused`: anything else, with the `status` and the `error` that was told.
 */
const SCHEMA_VERSION = "2";
/** How many milliseconds an answer may take. */
const PATIENCE = 15_000;

const KINDS = { ClientStateNotFound: "anew", VersionNotSupported: "version" };

function outcome(status, answer) {
  if (status === 401) return { kind: "key" };
  if (status === 200 && answer.error === undefined) return { kind: "ok", answer };
  return { kind: (status === 200 && KINDS[answer.error]) || "refused", status, error: answer.error };
}

async function ask(path, key, body) {
  try {
    const response = await fetch(path, {
      method: "POST",
      headers: { "Content-Type": "application/json", Authorization: key },
      body: JSON.stringify(body),
      cache: "no-store",
      signal: AbortSignal.timeout(PATIENCE),
    });
    // a proxy whose server does not answer says so by a page of its own, which is no JSON
    return outcome(response.status, await response.json());
  } catch {
    return { kind: "unreachable" };
  }
}

const whoAsks = ({ profileID, groupID }) => ({ schemaVersion: SCHEMA_VERSION, profileID, clientGroupID: groupID });

export function push(session, pending) {
  const mutations = pending.map(({ clientID, id, name, args }) => ({ clientID, id, name, args }));
  return ask("push", session.key, { pushVersion: 1, ...whoAsks(session), mutations });
}

export function pull(session) {
  return ask("pull", session.key, { pullVersion: 1, ...whoAsks(session), cookie: session.cookie });
}
