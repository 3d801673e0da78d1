// The page that asks for the word. Who was wrong too often has to wait: web.py says how long.
import { text, translate } from "./texts.js";

const wait = +document.body.dataset.wait, isWrong = location.pathname === "/word";  // a word was sent there
translate();
document.getElementById("wrong").textContent = wait ? text("wordWait", { wait }) : isWrong ? text("wordWrong") : "";
document.querySelector("form button").disabled = wait > 0;
if (wait) setTimeout(() => location.assign("/"), wait * 1000);
