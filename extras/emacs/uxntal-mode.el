;;; uxntal-mode.el --- Major mode for Uxntal sources -*- lexical-binding: t -*-

;; Package-Requires: ((emacs "27.1"))
;; Keywords: languages

;;; Commentary:

;; (add-to-list 'load-path "..") (require 'uxntal-mode)
;; Colours, indentation as `uxn-fmt' has it, and `M-x compile', which checks the source by `uxn-check'; `next-error'
;; goes to the faulty word, also in an included file.  With Eglot, `M-x eglot' starts the language server `uxn-lsp'.
;; These programs and `uxn' have to be in PATH.

;;; Code:

(defgroup uxntal nil
  "Uxntal sources."
  :group 'languages)

(defcustom uxntal-indent-offset 4
  "How many columns a level is indented.
Where `indent-tabs-mode' is set a level is a tab."
  :type 'integer
  :safe #'integerp
  :group 'uxntal)

;; facts: words
(defconst uxntal-runes ",_.;=!?-"
  "The runes of references, for a set of a regular expression.")

(defconst uxntal-plain-opcodes
  '("BRK" "JCI" "JMI" "JSI")
  "The instructions that take no modes.")

(defconst uxntal-moded-opcodes
  '("LIT" "INC" "POP" "NIP" "SWP" "ROT" "DUP" "OVR" "EQU" "NEQ" "GTH" "LTH"
    "JMP" "JCN" "JSR" "STH" "LDZ" "STZ" "LDR" "STR" "LDA" "STA" "DEI" "DEO"
    "ADD" "SUB" "MUL" "DIV" "AND" "ORA" "EOR" "SFT")
  "The instructions that take modes.")
;; facts end

(defconst uxntal-opcodes
  (concat (regexp-opt uxntal-plain-opcodes) "\\|\\(?:" (regexp-opt uxntal-moded-opcodes) "\\)[2kr]*")
  "The regular expression of the instructions.")

(defun uxntal-word (form)
  "The regular expression of a whole word of the FORM."
  (concat "\\(?:^\\|[[:space:]]\\)\\(" form "\\)\\(?:$\\|[[:space:]]\\)"))

(defun uxntal-search (form)
  "A matcher of font-lock for whole words of the FORM.
The blank behind one is left for the next."
  (lambda (limit)
    (let ((case-fold-search nil))
      (when (re-search-forward (uxntal-word form) limit t)
        (goto-char (match-end 1))
        t))))

(defvar uxntal-font-lock-keywords
  `((,(uxntal-search "\"[^[:space:]]*") 1 font-lock-string-face)
    (,(uxntal-search "[@&][^[:space:]]+") 1 font-lock-function-name-face)
    (,(uxntal-search (concat "[/" uxntal-runes "][^[:space:]]+")) 1 font-lock-variable-name-face)
    (,(uxntal-search "[|$][0-9a-f]\\{1,4\\}") 1 font-lock-preprocessor-face)
    (,(uxntal-search "#?\\(?:[0-9a-f][0-9a-f]\\)\\{1,2\\}") 1 font-lock-constant-face)
    (,(uxntal-search "[%~][^[:space:]]+") 1 font-lock-preprocessor-face)
    (,(uxntal-search uxntal-opcodes) 1 font-lock-keyword-face))
  "The colours of words.")

(defvar uxntal-mode-syntax-table
  (let ((table (make-syntax-table)))
    (dolist (char '(?\( ?\) ?\" ?\; ?\[ ?\] ?\{ ?\}))
      (modify-syntax-entry char "." table))
    table)
  "The syntax table of sources: a comment depends on the word.")

(defconst uxntal-syntax-propertize
  (syntax-propertize-rules
   ("\\(?:^\\|[[:space:]]\\)\\((\\)"
    (1 (when (or (looking-at-p "[[:space:]]\\|$")
                 (not (save-excursion (nth 4 (syntax-ppss (match-beginning 1))))))
         (string-to-syntax "< n"))))
   ("\\(?:^\\|[[:space:]]\\)\\()\\)\\(?:$\\|[[:space:]]\\)" (1 "> n")))
  "Comments begin with a word that begins with a parenthesis.
Within one a word that is just that begins another, and one that is
just the other parenthesis ends the innermost.")

;; Indentation, as `uxn-fmt' has it: labels, macros and pads at the left edge, sublabels one step in, code one step
;; behind its label, what braces hold one step more.  A label that stands deeper than its pad stays beneath it, a
;; sublabel that stands deeper than another beneath that one, one at the left edge over indented code like a label, and
;; code that stands no deeper than the sublabel before it does not belong to it.

(defun uxntal--level (place)
  "How many levels the line at PLACE is indented."
  (save-excursion
    (goto-char place)
    (/ (current-indentation) (uxntal--step))))

(defun uxntal--step ()
  "The columns of a level."
  (if indent-tabs-mode tab-width uxntal-indent-offset))

(defun uxntal--in-comment-p (place)
  "Whether PLACE is within a comment."
  (save-excursion (nth 4 (syntax-ppss place))))

(defun uxntal--starts-in-comment-p ()
  "Whether this line begins within a comment."
  (uxntal--in-comment-p (line-beginning-position)))

(defun uxntal--words ()
  "The words of this line, without its comments."
  (let ((end (line-end-position)) words)
    (save-excursion
      (beginning-of-line)
      (while (re-search-forward "[^[:space:]]+" end t)
        (let ((word (match-string-no-properties 0))
              (is-comment (uxntal--in-comment-p (match-beginning 0))))
          (unless (or is-comment (string-prefix-p "(" word))
            (push word words)))))
    (nreverse words)))

(defun uxntal--opener-p (word)
  "Whether WORD opens what a brace or a bracket closes."
  (string-match-p (concat "\\`\\(?:[" uxntal-runes "]?{\\|\\[\\)\\'") word))

(defun uxntal--closer-p (word)
  "Whether WORD closes it."
  (member word '("}" "]")))

(defun uxntal--opened (words)
  "How many of the WORDS open something that stays open.
A closing word at the start counts for the line itself."
  (let ((count 0))
    (when (uxntal--closer-p (car words))
      (setq words (cdr words)))
    (dolist (word words count)
      (cond ((uxntal--opener-p word) (setq count (1+ count)))
            ((uxntal--closer-p word) (setq count (1- count)))))))

(defun uxntal--previous-code ()
  "Go to the line with words before this one, and answer them."
  (let (words)
    (while (and (not words) (zerop (forward-line -1)))
      (unless (uxntal--starts-in-comment-p)
        (setq words (uxntal--words))))
    words))

(defun uxntal--level-after (words level)
  "The level of code behind a line that has WORDS and a LEVEL."
  (let ((first (substring (car words) 0 1))
        (opened (uxntal--opened words)))
    (cond ((or (member first '("@" "&"))
               (and (equal first "|") (seq-some (lambda (word) (string-prefix-p "@" word)) words)))
           (+ level 1 opened))
          ((member first '("|" "~")) 0)
          ((equal first "%") (max 0 opened))
          ((and (cdr words) (string-prefix-p "&" (car (last words)))) (+ level 1 opened))
          (t (max 0 (+ level opened))))))

(defun uxntal--sublabel-level (old)
  "The level of a sublabel in this line, which was indented by OLD columns.
It is one more than its label has, or one more than a sublabel that
it stood deeper than.  One at the left edge over code that is
indented stands like a label."
  (save-excursion
    (let ((level (and (zerop old) (uxntal--before-own-code-p) 0))
          words)
      (while (and (not level) (setq words (uxntal--previous-code)))
        (when (or (string-match-p "\\`[@|]" (car words))
                  (and (string-prefix-p "&" (car words)) (< (current-indentation) old)))
          (setq level (1+ (uxntal--level (point))))))
      (or level 0))))

(defun uxntal--before-own-code-p ()
  "Whether the next line that is not blank is indented code."
  (save-excursion
    (while (and (zerop (forward-line 1)) (looking-at-p "[[:space:]]*$") (not (eobp))))
    (and (> (current-indentation) 0)
         (not (looking-at-p "[[:space:]]*[]@|%}]")))))

(defun uxntal--leaves-p (old before level)
  "Whether code that was indented by OLD columns left what it stood in.
BEFORE has the words of the line before it, behind which LEVEL is due."
  (and before
       (< 0 old (* level (uxntal--step)))
       (not (string-match-p "\\`[@|%~]" (car before)))
       (<= (uxntal--opened before) 0)))

(defun uxntal--code-level (old words)
  "The level of a line of code with WORDS that was indented by OLD columns."
  (save-excursion
    (let* ((before (uxntal--previous-code))
           (level (if before (uxntal--level-after before (uxntal--level (point))) 0)))
      (cond ((uxntal--closer-p (car words)) (max 0 (1- level)))
            ((uxntal--leaves-p old before level) (max 1 (round old (float (uxntal--step)))))
            (t level)))))

(defun uxntal-indentation ()
  "The column of this line; nil for one that begins within a comment."
  (unless (uxntal--starts-in-comment-p)
    (let* ((old (current-indentation))
           (words (or (uxntal--words) (uxntal--words-behind-comment)))
           (first (if words (substring (car words) 0 1) "")))
      (* (uxntal--step)
         (cond ((member first '("|" "%")) 0)
               ((and (equal first "~") (zerop old)) 0)
               ((equal first "@") (if (uxntal--beneath-pad-p old) 1 0))
               ((equal first "&") (uxntal--sublabel-level old))
               (t (uxntal--code-level old (or words '("")))))))))

(defun uxntal--words-behind-comment ()
  "The words of the next line where this one is a comment before it.
A comment stands as the line behind it does."
  (save-excursion
    (when (looking-at-p "[[:space:]]*(")
      (let (words (more t))
        (while (and more (not words))
          (setq more (and (zerop (forward-line 1)) (not (eobp)) (not (looking-at-p "[[:space:]]*$"))))
          (when (and more (not (uxntal--starts-in-comment-p)))
            (setq words (uxntal--words))))
        words))))

(defun uxntal--beneath-pad-p (old)
  "Whether a label that was indented by OLD columns stands beneath a pad."
  (and (> old 0)
       (save-excursion
         (let ((words (uxntal--previous-code)))
           (while (and words (> (current-indentation) 0))
             (setq words (uxntal--previous-code)))
           (and words (string-prefix-p "|" (car words))
                (not (seq-some (lambda (word) (string-prefix-p "@" word)) words)))))))

(defun uxntal-indent-line ()
  "Indent this line."
  (interactive)
  (let ((column (uxntal-indentation)))
    (if (not column)
        'noindent
      (if (<= (current-column) (current-indentation))
          (indent-line-to column)
        (save-excursion (indent-line-to column))))))

;;;###autoload
(define-derived-mode uxntal-mode prog-mode "Uxntal"
  "Major mode for Uxntal sources."
  (setq-local comment-start "( ")
  (setq-local comment-end " )")
  (setq-local comment-start-skip "( *")
  (setq-local parse-sexp-lookup-properties t)
  (setq-local syntax-propertize-function uxntal-syntax-propertize)
  (setq-local font-lock-defaults '(uxntal-font-lock-keywords))
  (setq-local indent-line-function #'uxntal-indent-line)
  (setq-local electric-indent-chars '(?\n ?}))
  (setq-local compile-command
              (concat "uxn-check " (shell-quote-argument (or buffer-file-name "")))))

;; A fault of a word in an included file, as `uxn' itself tells it.
(defvar compilation-error-regexp-alist)
(defvar compilation-error-regexp-alist-alist)
(with-eval-after-load 'compile
  (add-to-list 'compilation-error-regexp-alist-alist
               '(uxntal "^source \\([^ \n]+\\) \\([0-9]+\\):\\([0-9]+\\): " 1 2 3))
  (add-to-list 'compilation-error-regexp-alist 'uxntal))

(defvar eglot-server-programs)
(with-eval-after-load 'eglot
  (add-to-list 'eglot-server-programs '(uxntal-mode . ("uxn-lsp"))))

;;;###autoload
(add-to-list 'auto-mode-alist '("\\.tal\\'" . uxntal-mode))

(provide 'uxntal-mode)
;;; uxntal-mode.el ends here
