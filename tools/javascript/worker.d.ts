// What a service worker has, beside what any worker has.

declare const clients: Clients;
declare function skipWaiting(): Promise<void>;
declare function addEventListener(
  type: "install" | "activate",
  listener: (event: ExtendableEvent) => void,
): void;
declare function addEventListener(type: "fetch", listener: (event: FetchEvent) => void): void;
