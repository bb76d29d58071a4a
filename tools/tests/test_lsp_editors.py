"""`lsp` in editors that are here: Neovim without a screen, with real keystrokes; and the colours of Vim."""
import json
import os
import re
import shutil
import subprocess

from cobench_tools.forms import FORMS
from helper import COBTOOL, ROOT, Skipped, file, put
from lsp_scene import words
from test_lsp import NAME, row_of, scene

VIM = os.path.join(ROOT, "editors", "vim")

# Neovim starts the server, waits for what it says, types, and keeps what it is told.
NEOVIM = r"""
local said = {}
local function keep(name, value) said[name] = value end
local function wait(is_so) return vim.wait(60000, is_so, 20) end
vim.cmd("edit network.txt")
local client = vim.lsp.start_client({ name = "cobtool", cmd = COMMAND })
vim.lsp.buf_attach_client(0, client)
keep("filetype", vim.bo.filetype)
keep("started", wait(function() return vim.lsp.buf_is_attached(0, client) and #vim.lsp.get_active_clients() > 0 end))
local function ask(method, params)
  local found = vim.lsp.buf_request_sync(0, method, params, 60000)
  for _, each in pairs(found or {}) do return each.result end
end
local function keys(text) vim.api.nvim_feedkeys(vim.api.nvim_replace_termcodes(text, true, true, true), "xt", false) end
vim.fn.search("^param 5 1017")
keys("$ciw99999<Esc>")
wait(function() return #vim.diagnostic.get(0) > 0 end)
keep("wrong", vim.tbl_map(function(each) return { each.lnum, each.col, each.end_col, each.code or each.user_data.lsp.code } end, vim.diagnostic.get(0)))
keys("u")
keep("mended", wait(function() return #vim.diagnostic.get(0) == 0 end))
vim.fn.search("^source flow")
keys("3w")
keep("hover", ask("textDocument/hover", vim.lsp.util.make_position_params()).contents.value)
keys("Oparam 5 10<Esc>")
local there = ask("textDocument/completion", { textDocument = vim.lsp.util.make_text_document_params(),
  position = { line = vim.fn.line(".") - 1, character = 10 } })
keep("completion", vim.tbl_map(function(each) return each.label end, there.items))
keys("dd")
vim.fn.search("^message flow")
keys("w")
local params = vim.lsp.util.make_position_params()
params.newName = "stream"
vim.lsp.util.apply_workspace_edit(ask("textDocument/rename", params), "utf-16")
keep("text", vim.api.nvim_buf_get_lines(0, 0, -1, false))
vim.lsp.stop_client(client)
local file = io.open("said.json", "w")
file:write(vim.json and vim.json.encode(said) or vim.fn.json_encode(said))
file:close()
vim.cmd("qa!")
"""


def lua(words_of):
    """Words as a list of Lua."""
    return "{ " + ", ".join(json.dumps(word) for word in words_of) + " }"


def test_neovim_shows_what_is_wrong_after_keystrokes_and_asks_and_renames():
    if not shutil.which("nvim"):
        raise Skipped("Neovim isn't installed")
    text = scene()
    put(NAME, text.encode())
    command = ["python3", COBTOOL, "lsp", "--cobench", " ".join(words())]
    put("try.lua", NEOVIM.replace("COMMAND", lua(command)).encode())
    done = subprocess.run(["nvim", "--headless", "-u", "NONE", "-n", "--cmd", f"set rtp+={VIM}", "--cmd", "filetype plugin on", "-c", "luafile try.lua"],
                          stdout=subprocess.PIPE, stderr=subprocess.PIPE, timeout=200, env={**os.environ, "HOME": os.getcwd()})
    assert os.path.exists("said.json"), done.stderr
    said = json.loads(file("said.json"))
    row = row_of(text, "param 5 1017")
    assert said["wrong"] == [[row, 15, 20, "E02"]] and said["mended"], said
    assert "6041h:00 Statusword" in said["hover"] and said["completion"] == ["1017", "2010"], said
    assert said["filetype"] == "cobench"
    assert [row for row in said["text"] if "stream" in row] == [
        "message stream 5 1 1 0 0 0", "source stream 1 6041 0", "sink stream 1 6 6040 0"]


def test_vim_gives_scripts_their_type_and_their_colours():
    if not shutil.which("vim"):
        raise Skipped("Vim isn't installed")
    put(NAME, scene().encode() + b"nonsense 5\nparam 5 2010 0 some text\n")
    put("ask.vim", b"""function! At(pattern, column)
  call search(a:pattern, 'w')
  return synIDattr(synID(line('.'), a:column, 1), 'name')
endfunction
call writefile([&filetype, At('^# A pump', 1), At('^eds', 1), At('^eds', 11), At('^nonsense', 1), At('^param 5 2010', 16), At('^node 5', 6)], 'said')
qa!
""")
    subprocess.run(["vim", "-E", "-s", "-N", "-u", "NONE", "-i", "NONE", "--cmd", f"set rtp+={VIM}", "--cmd", "filetype plugin on",
                    "--cmd", "syntax on", "-S", "ask.vim", NAME], stdin=subprocess.DEVNULL, stdout=subprocess.DEVNULL, timeout=60)
    assert file("said").decode().split() == ["cobench", "cobenchComment", "cobenchCommand", "cobenchFile", "cobenchWrong", "cobenchParam",
                                             "cobenchNumber"], file("said")


def test_the_colours_have_all_commands():
    for path in (("vim", "syntax", "cobench.vim"), ("vscode", "syntaxes", "cobench.tmLanguage.json")):
        text = file(ROOT, "editors", *path).decode()
        found = next(set(each.split("|")) for each in re.findall(r"\(([a-z|-]+)\)", text) if "manager" in each)
        assert found == set(FORMS), path
    json.loads(file(ROOT, "editors", "vscode", "syntaxes", "cobench.tmLanguage.json"))
    json.loads(file(ROOT, "editors", "vscode", "package.json"))
