// What both browsers share: their programs, a folder for each run, and an end.
import fs from 'node:fs';
import os from 'node:os';
import path from 'node:path';
import { spawn } from 'node:child_process';

const isProgram = (file) => {
  try {
    fs.accessSync(file, fs.constants.X_OK);
    return true;
  } catch {
    return false;
  }
};

/** The first program of these names on the PATH, or null. */
export const programOf = (...names) =>
  names.flatMap((name) => (process.env.PATH ?? '').split(path.delimiter).map((folder) => path.join(folder, name))).find(isProgram) ?? null;

/** Waits until a question has an answer that is not null or undefined. */
export const until = async (ask, what, seconds = 60) => {
  for (const end = Date.now() + 1000 * seconds; Date.now() < end; await new Promise((done) => setTimeout(done, 50))) {
    const answer = await ask();
    if (answer !== null && answer !== undefined && answer !== false) return answer;
  }
  throw new Error(`no ${what} within ${seconds} seconds`);
};

/** Starts a browser in a folder of its own, and gives what quits it, and what ends it and takes the folder away. */
export const started = (program, wordsOf, stdio) => {
  const folder = fs.mkdtempSync(path.join(os.tmpdir(), 'page-'));
  const env = { ...process.env, HOME: folder, XDG_RUNTIME_DIR: folder, TMPDIR: folder, MOZ_CRASHREPORTER_DISABLE: '1' };
  const child = spawn(program, wordsOf(folder), { stdio, env, detached: true });
  const ended = new Promise((done) => child.once('exit', done));
  // Ends the browser as its window does, by a call, which then writes what it keeps.
  const quit = async (call) => {
    call().catch(() => {});
    await Promise.race([ended, new Promise((done) => setTimeout(done, 20000).unref())]);
  };
  const stop = async () => {
    try {
      process.kill(-child.pid, 'SIGKILL');
    } catch {
      // It has ended by itself.
    }
    await ended;
    fs.rmSync(folder, { recursive: true, force: true, maxRetries: 20, retryDelay: 100 });
  };
  return { folder, child, quit, stop };
};
