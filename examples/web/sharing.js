/** With whom a list is shared, and what each of them may do. */
import { byId, element, follow, saysYes, setText } from "./elements.js";

export class Sharing {
  #view;
  #mutate;
  #announce;
  #list;

  /** `mutate` takes calls, `announce` what a person who does not see the page should hear. */
  constructor(view, mutate, announce) {
    this.#view = view;
    this.#mutate = mutate;
    this.#announce = announce;
    byId("share-form").addEventListener("submit", (event) => {
      event.preventDefault();
      const userID = byId("share-user").value.trim();
      if (userID !== "") this.#share(userID);
      byId("share-user").value = "";
    });
    byId("leave-list").addEventListener("click", () => this.#leave());
  }

  show(list) {
    this.#list = list;
    const { ownerID, shares } = list;
    const isOwn = ownerID === this.#view.session.user;
    const owner = isOwn ? "This list is yours" : `This list is ${ownerID}’s`;
    setText(byId("sharing-owner"), `${owner}${shares.length > 0 ? ", shared with:" : isOwn ? ", and nobody else sees it." : "."}`);
    follow(byId("shares"), shares, (id) => this.#make(id), (item, share) => this.#update(item, share, isOwn));
    byId("share-form").hidden = !isOwn;
    byId("delete-list").hidden = !isOwn;
    byId("leave-list").hidden = isOwn;
  }

  #make(id) {
    const remove = element("button", { className: "remove", type: "button" });
    remove.addEventListener("click", () => this.#mutate({ name: "deleteShare", args: id }));
    const role = element("button", { className: "role", type: "button" });
    role.addEventListener("click", () => this.#mutate({ name: "updateShare", args: { id, role: role.dataset.other } }));
    return element("li", {}, element("span"), role, remove);
  }

  #update(item, { userID, role: named }, isOwn) {
    const [name, role, remove] = item.children;
    const isEditor = named !== "view";
    setText(name, userID);
    setText(role, isEditor ? "may edit" : "may look");
    role.dataset.other = isEditor ? "view" : "edit";
    role.title = isOwn ? (isEditor ? `Let ${userID} only look` : `Let ${userID} edit`) : "";
    role.disabled = !isOwn;
    remove.ariaLabel = `Stop sharing with ${userID}`;
    remove.hidden = !isOwn;
  }

  #share(userID) {
    const { id: listID, ownerID, shares } = this.#list;
    if (userID === ownerID || shares.some((share) => share.userID === userID)) {
      this.#announce(`${userID} already sees this list`);
      return;
    }
    const role = byId("share-edit").checked ? "edit" : "view";
    this.#mutate({ name: "createShare", args: { id: crypto.randomUUID(), listID, userID, role } });
  }

  async #leave() {
    const { name, shares } = this.#list;
    const own = shares.find(({ userID }) => userID === this.#view.session.user);
    if (await saysYes(`Leave “${name}”? Only its owner can share it with you again.`, "Leave")) {
      this.#mutate({ name: "deleteShare", args: own.id });
    }
  }
}
