// The worker in which commands run: it is given the module first, then one command at a time, and answers each with what it wrote.
import { answer } from "./engine.mjs";

let program = null;

onmessage = async ({ data }) => {
  if (data.module) {
    program = data.module;
    return;
  }
  try {
    const { status, output, errors } = await answer(program, data.words, data.input);
    postMessage({ status, output, errors }, [output.buffer, errors.buffer]);
  } catch (error) {
    postMessage({ failed: String(error) });
  }
};
