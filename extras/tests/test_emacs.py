"""Emacs without a window: the mode's colours and indentation, compilation, and the language server by Eglot, as
docs/editors.md says."""
import glob
import os
import shutil

from support import EXAMPLES, EXTRAS, ToolTest, needs
from test_vim import settings

PROGRAMS = os.path.join(EXTRAS, "tests", "programs")

# Waits for a form to hold, while answers of the server come.
WAIT = """
(require 'cl-lib)
(defmacro wait-for (form)
  `(let ((left 600))
     (while (and (> left 0) (not ,form)) (accept-process-output nil 0.05) (cl-decf left))
     (or ,form (error "no %S" ',form))))
(defun say (form &rest parts) (princ (apply #'format (concat form "\\n") parts)))
"""
EGLOT_SESSION = (
    WAIT
    + """
(require 'eglot)
(setq eglot-sync-connect t eglot-connect-timeout 60 eglot-confirm-server-initiated-edits nil)
(setq eglot-extend-to-xref t make-backup-files nil)
(find-file "life.tal")
(apply #'eglot--connect (eglot--guess-contact))
(wait-for (flymake-diagnostics))
(dolist (found (flymake-diagnostics))
  (say "%d %s" (line-number-at-pos (flymake-diagnostic-beg found)) (flymake-diagnostic-text found)))
(goto-char (point-min)) (search-forward "#5") (replace-match "#05")
(eglot--signal-textDocument/didChange)
(wait-for (not (flymake-diagnostics)))
(search-forward "print-digit") (backward-char 2)
(let ((answer (jsonrpc-request (eglot--current-server-or-lose) :textDocument/hover
                               (eglot--TextDocumentPositionParams))))
  (say "%s" (plist-get (plist-get answer :contents) :value)))
(princ (format "%S\\n" (all-completions "print-d" (nth 2 (eglot-completion-at-point)))))
(xref-find-definitions (xref-backend-identifier-at-point 'eglot))
(princ (format "%s:%d\\n" (buffer-name) (line-number-at-pos)))
(search-forward "print-digit")
(eglot-rename "show-digit")
(with-current-buffer "life.tal" (eglot-format-buffer) (save-buffer))
(save-buffer)
(princ (format "%S\\n" (cl-remove-if-not #'stringp (mapcar #'car (with-current-buffer "life.tal" (eglot-imenu))))))
(eglot-shutdown (eglot-current-server))
"""
)


@needs("emacs")
class Emacs(ToolTest):
    def emacs(self, form: str, *words: str) -> str:
        """Evaluates a form with the mode, and answers what it printed."""
        return self.succeed(
            "emacs",
            "-Q",
            "--batch",
            *words,
            "-L",
            os.path.join(EXTRAS, "emacs"),
            "-l",
            "uxntal-mode",
            "--eval",
            f"(progn {form})",
        )

    def test_it_is_compiled_without_a_warning(self) -> None:
        shutil.copy(os.path.join(EXTRAS, "emacs", "uxntal-mode.el"), self.path("uxntal-mode.el"))
        done = self.call(
            "emacs",
            "-Q",
            "--batch",
            "--eval",
            "(setq byte-compile-error-on-warn t)",
            "-f",
            "batch-byte-compile",
            "uxntal-mode.el",
        )
        said = (done.stdout + done.stderr).decode()
        self.assertEqual((done.returncode, "arning" in said), (0, False), said)
        self.write("bad.el", "(defun bad () (no-such-function-here))")
        self.refuse_to_compile("bad.el")

    def refuse_to_compile(self, name: str) -> None:
        done = self.call(
            "emacs", "-Q", "--batch", "--eval", "(setq byte-compile-error-on-warn t)", "-f", "batch-byte-compile", name
        )
        self.assertNotEqual(done.returncode, 0)

    def test_colours(self) -> None:
        self.write("a.tal", '@main\n    ( a ( b ) "c (d )\n    LIT2rk #12 "t( ext\n    BRK\n')
        words = ["@main", "( a", "b", "c", "(d", "LIT2rk", "#12", "t( ", "BRK"]
        quoted = " ".join(f'"{word}"' for word in words)
        faces = self.emacs(
            f"""(find-file "a.tal") (font-lock-ensure)
            (dolist (text (list {quoted}))
              (goto-char (point-min)) (search-forward text)
              (princ (format "%s " (get-text-property (1- (point)) 'face))))
            (princ major-mode)"""
        )
        wanted = ["function-name", *["comment"] * 4, "keyword", "constant", "nil", "keyword"]
        self.assertEqual(
            faces, " ".join("nil" if one == "nil" else f"font-lock-{one}-face" for one in wanted) + " uxntal-mode"
        )

    def test_compilation_goes_to_the_faulty_word(self) -> None:
        self.write("a folder/b c.tal", "@main BRK\n  nothing BRK")
        said = self.emacs(
            WAIT
            + """(require 'compile) (find-file "a folder/b c.tal")
            (let ((buffer (compile compile-command)))
              (set-buffer buffer)
              (wait-for (save-excursion (goto-char (point-min)) (search-forward "Compilation exited" nil t)))
              (goto-char (point-min)) (next-error)
              (with-current-buffer (window-buffer)
                (princ (format "%s %d %d" (buffer-name) (line-number-at-pos) (current-column)))))"""
        )
        self.assertTrue(said.endswith("b c.tal 2 2"), said)

    def test_indentation_from_nothing(self) -> None:
        self.write(
            "g.tal",
            "|0100 @main ( -> )\n#00\n&next\nINC DUP ?{\nPOP\n}\n#10 NEQ ?&next\n@other\n( a\n   b )\nBRK\n"
            "|0200\n#01\n",
        )
        said = self.emacs(
            """(find-file "g.tal") (setq indent-tabs-mode nil) (indent-region (point-min) (point-max)) (princ
            (buffer-string))"""
        )
        self.assertIn(
            "|0100 @main ( -> )\n    #00\n    &next\n        INC DUP ?{\n            POP\n        }\n"
            "        #10 NEQ ?&next\n@other\n    ( a\n   b )\n    BRK\n|0200\n#01\n",
            said,
        )
        said = self.emacs(
            """(find-file "g.tal") (setq indent-tabs-mode nil) (goto-char (point-max)) (insert "@a\\n&b")
            (reindent-then-newline-and-indent) (insert "INC") (princ (thing-at-point 'line t))"""
        )
        self.assertEqual(said, "        INC")

    def test_what_is_indented_stays(self) -> None:
        """As uxn-fmt lays it out: each example, and a program of 168 lines."""
        files = sorted(glob.glob(os.path.join(EXAMPLES, "**", "*.tal"), recursive=True)) + [
            os.path.join(PROGRAMS, "life.tal")
        ]
        quoted = " ".join(f'"{path}"' for path in files)
        said = self.emacs(
            f"""(dolist (path (list {quoted}))
              (with-temp-buffer
                (insert-file-contents path) (uxntal-mode)
                (setq indent-tabs-mode (save-excursion (re-search-forward "^\\t" nil t)))
                (let ((before (buffer-string)))
                  (indent-region (point-min) (point-max))
                  (unless (equal before (buffer-string)) (princ (format "CHANGED %s\\n" path))))))
            (princ "done")"""
        )
        self.assertNotIn("CHANGED", said)
        self.assertTrue(said.endswith("done"))

    def test_the_settings_of_the_page(self) -> None:
        self.assertIn("(require 'uxntal-mode)", settings("Emacs", "elisp"))
        self.assertIn("eglot-ensure", settings("Emacs", "elisp"))

    def test_the_language_server_by_eglot(self) -> None:
        if self.call("emacs", "-q", "--batch", "-f", "package-initialize", "--eval", "(require 'eglot)").returncode:
            self.skipTest("this Emacs has no Eglot")
        shutil.copytree(PROGRAMS, self.folder, dirs_exist_ok=True)
        self.succeed("uxn", "asm", "life.tal", "--out", "before")
        self.write(
            "life.tal",
            self.read("life.tal").decode().replace("#05 .wanted", "#5 .wanted").replace("\tBRK", "\t  BRK", 1),
        )
        self.write("session.el", EGLOT_SESSION)
        said = self.succeed(
            "emacs",
            "-q",
            "--batch",
            "-f",
            "package-initialize",
            "-L",
            os.path.join(EXTRAS, "emacs"),
            "-l",
            "uxntal-mode",
            "-l",
            "session.el",
        )
        lines = [line for line in said.splitlines() if line]
        self.assertRegex(lines[0], "^21 .*#5: the digits")
        self.assertIn("label **print-digit** at ", said)
        self.assertIn('("print-digit"', said)
        self.assertIn("print.tal:14\n", said)
        self.assertIn("show-digit\n", self.read("life.tal").decode())
        self.assertIn("@show-digit", self.read("life/print.tal").decode())
        self.assertIn("\n\tBRK", self.read("life.tal").decode())
        self.succeed("uxn", "asm", "life.tal", "--out", "after")
        self.assertEqual(self.read("after"), self.read("before"))
