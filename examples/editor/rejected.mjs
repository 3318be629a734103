// A request that isn't answered as it wishes, with HTTP's status for it.
export class Rejected extends Error {
  constructor(status, message) {
    super(message);
    this.status = status;
  }
}
