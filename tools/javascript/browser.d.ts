// What browsers have, and the libraries of TypeScript 4.8 lack.

interface Array<T> {
  findLast(predicate: (value: T, index: number, array: T[]) => unknown): T | undefined;
}

type AbortSignals = typeof AbortSignal & { timeout(milliseconds: number): AbortSignal };
