"""Neovim without a window: the language server by Neovim's own client, with the settings of docs/editors.md."""
import os
import shutil

from support import EXTRAS, ToolTest, needs
from test_vim import settings

PROGRAMS = os.path.join(EXTRAS, "tests", "programs")

# What can stand behind `print-`, in the order of the source, as `print-sign` has another name by then.
PRINTING = ["print-generation", "print-generation/next", "print-cell", "print-text", "print-digit"]
SESSION = """
local said = io.open('said', 'w')
local function say(...) said:write(table.concat({...}, ' '), '\\n') said:flush() end
local function wait(what) if not vim.wait(30000, what, 20) then say('no answer') vim.cmd('cquit') end end
local function at(text) vim.fn.cursor(1, 1) vim.fn.search('\\\\V' .. text) end
local function ask(method)
  local answers = vim.lsp.buf_request_sync(0, method, vim.lsp.util.make_position_params(), 30000)
  for _, answer in pairs(answers or {}) do return answer.result end
end
vim.o.hidden = true
vim.cmd('edit life.tal')
wait(function() return #vim.diagnostic.get(0) == 2 end)
for _, one in ipairs(vim.diagnostic.get(0)) do say(one.lnum + 1, one.col + 1, one.message) end
vim.cmd('%s/#5 /#05 /')
vim.cmd('%s/print-cells/print-cell/')
wait(function() return #vim.diagnostic.get(0) == 0 end)
at('print-digit')
say(ask('textDocument/hover').contents.value)
say(#ask('textDocument/references'), 'references')
vim.lsp.buf.definition()
wait(function() return vim.fn.expand('%:t') == 'print.tal' end)
say(vim.fn.expand('%:t'), vim.fn.line('.'))
at('print-sign')
vim.lsp.buf.rename('show')
wait(function() return vim.fn.search('^@show ', 'n') > 0 end)
vim.cmd('buffer life.tal')
at('#05')
vim.lsp.buf.formatting_sync(nil, 30000)
vim.cmd('wall')
at('@left')
vim.cmd('normal! oprint-d')
vim.fn.cursor(vim.fn.line('.'), 8)
for _, item in ipairs(ask('textDocument/completion').items) do say('completed', item.label) end
local function offered(text)
  at('@left')
  vim.cmd('normal! o' .. text)
  local words
  vim.fn.complete = function(start, items)
    words = vim.tbl_map(function(item) return start .. ':' .. item.word end, items)
    vim.api.nvim_input('<Esc>')
  end
  vim.defer_fn(function() if not words then vim.api.nvim_input('<Esc>') end end, 20000)
  vim.api.nvim_feedkeys('A' .. vim.api.nvim_replace_termcodes('<C-X><C-O>', true, true, true), 'x!', true)
  say('offered', text, table.concat(words or {}, ' '))
  vim.cmd('undo')
end
offered(';print-d')
offered('print-d')
say('folds', #ask('textDocument/foldingRange') > 20 and 'many' or 'few')
vim.cmd('qall!')
"""

TYPE = """
local said = io.open('said', 'w')
local function say(...) said:write(table.concat({...}, ' '), '\\n') said:flush() end
vim.cmd('edit src/a\\\\ b.tal')
say(vim.bo.filetype)
say(vim.bo.commentstring)
vim.fn.cursor(1, 16)
say(vim.fn.expand('<cword>'))
vim.fn.cursor(2, 4)
vim.cmd('normal gf')
say(vim.fn.expand('%:t'))
vim.cmd('edit src/a\\\\ b.tal')
vim.cmd('silent make')
local one = vim.fn.getqflist()[1]
say(one.lnum, one.col, one.text)
say(vim.fn.fnamemodify(vim.fn.bufname(one.bufnr), ':t'))
vim.cmd('qall!')
"""


@needs("nvim")
class Neovim(ToolTest):
    def session(self) -> list[str]:
        """Runs Neovim with the page's settings over the session, and answers what it said."""
        self.write("init.lua", settings("Neovim", "lua").replace("'~/uxn/extras/vim'", f"'{EXTRAS}/vim'"))
        self.write("session.lua", SESSION)
        self.call(
            "nvim",
            "--headless",
            "-n",
            "-i",
            "NONE",
            "-u",
            "init.lua",
            "-c",
            "luafile session.lua",
            XDG_STATE_HOME=self.folder,
            XDG_DATA_HOME=self.folder,
            XDG_CACHE_HOME=self.folder,
            seconds=120,
        )
        return self.read("said").decode().splitlines()

    def test_a_session(self) -> None:
        shutil.copytree(PROGRAMS, self.folder, dirs_exist_ok=True)
        self.succeed("uxn", "asm", "life.tal", "--out", "before")
        text = (
            self.read("life.tal")
            .decode()
            .replace("#05 .wanted", "#5 .wanted")
            .replace("print-cell\n", "print-cells\n", 1)
        )
        self.write("life.tal", text.replace("\tBRK", "\t  BRK", 1))
        said = self.session()
        self.assertTrue(said[0].startswith("21 2 #5: the digits"), said)
        self.assertEqual(said[1], "140 8 print-cells: no label has this name, and no macro before it")
        self.assertTrue(said[2].startswith("label **print-digit** at "), said)
        self.assertEqual(
            [line for line in said[3:] if line and not line.startswith("`(")],
            [
                "1 references",
                "print.tal 14",
                *(f"completed {name}" for name in PRINTING),
                "offered ;print-d 2:;print-digit",
                "offered print-d 2:print-digit",
                "folds many",
            ],
        )
        self.assertIn("@show ( sign -- )", self.read("life/print.tal").decode())
        self.assertIn("\n\tBRK", self.read("life.tal").decode())
        self.succeed("uxn", "asm", "life.tal", "--out", "after")
        self.assertEqual(self.read("after"), self.read("before"))

    def test_the_file_type(self) -> None:
        """Comments, words, the file of an include word, and `:make`."""
        self.write("src/a b.tal", "|0100 @main print/line BRK\n~lib/print.tal\n")
        self.write("lib/print.tal", "@print\n\t&line nothing JMP2r\n")
        self.write("uxn-test.toml", 'include-from = "."\n')
        self.write("type.lua", TYPE)
        self.call(
            "nvim", "--headless", "-n", "-i", "NONE", "-u", "NONE", "--cmd", f"set rtp^={EXTRAS}/vim",
            "--cmd", "filetype plugin indent on", "-c", "luafile type.lua", seconds=60,
        )
        self.assertEqual(
            self.read("said").decode().splitlines(),
            ["uxntal", "( %s )", "print/line", "print.tal", "2 8 UnknownName: nothing", "print.tal"],
        )
