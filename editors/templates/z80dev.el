;;; z80dev.el --- Sources and errors of z80dev  -*- lexical-binding: t -*-

;; Written by editors/generate from editors/templates/z80dev.el and editors/words: change those.

;;; Commentary:

;; (load "/PATH/editors/emacs/z80dev.el") in your init file.  Then files that end with .asm, .mac or .z80 open in `z80dev-mode',
;; and in a compilation buffer `next-error' goes to the lines of `error: PATH(LINE): NAME' and of `warning: PATH(LINE): TEXT', and RET to
;; that of `grown PATH(LINE)'.  It also goes to the places that `z80dev explain' prints, as `PATH:LINE:COLUMN: error: TEXT [NAME]'; to
;; those of its notes, `PATH:LINE:COLUMN: note: TEXT', RET goes.
;; Columns count bytes: set `compilation-error-screen-columns' to nil, so that Emacs counts a tab as one column too.

;;; Code:

(require 'compile)

(add-to-list 'compilation-error-regexp-alist-alist
             '(z80dev "^error: \\(.+\\)(\\([0-9]+\\)): [A-Za-z]+$" 1 2))
(add-to-list 'compilation-error-regexp-alist-alist
             '(z80dev-grown "^grown \\(.+\\)(\\([0-9]+\\))$" 1 2 nil 0))
(add-to-list 'compilation-error-regexp-alist-alist
             '(z80dev-warning "^warning: \\([^(]+\\)(\\([0-9]+\\)): " 1 2 nil 1))
(add-to-list 'compilation-error-regexp-alist-alist
             '(z80dev-explain "^\\(.+?\\):\\([0-9]+\\):\\([0-9]+\\): \\(?:error\\|\\(warning\\)\\|\\(note\\)\\): " 1 2 3 (4 . 5)))
(add-to-list 'compilation-error-regexp-alist 'z80dev)
(add-to-list 'compilation-error-regexp-alist 'z80dev-warning)
(add-to-list 'compilation-error-regexp-alist 'z80dev-grown)
(add-to-list 'compilation-error-regexp-alist 'z80dev-explain)

(defconst z80dev-name "[A-Za-z_?@.][A-Za-z0-9_?@.]*")

(defconst z80dev-start (concat "^[ \t]*\\(?:" z80dev-name "[ \t]*:[ \t]*\\)?")
  "What stands before the word of a statement.")

(defconst z80dev-font-lock-keywords
  (list
   (list (concat "^[ \t]*\\(" z80dev-name "[ \t]*:\\)") 1 'font-lock-function-name-face)
   ;; Words that mean this only where a statement begins.  Elsewhere they may be labels.
   (list (concat z80dev-start (regexp-opt '(@"instruction"@) t) "\\_>") 1 'font-lock-keyword-face)
   (list (concat z80dev-start (regexp-opt '(@"directive|block"@) t) "\\_>") 1 'font-lock-preprocessor-face)
   (cons (regexp-opt '(@"definition"@) 'symbols) 'font-lock-preprocessor-face)
   (cons "\\_<af'" 'font-lock-variable-name-face)
   (cons (regexp-opt '(@"register|condition"@) 'symbols) 'font-lock-variable-name-face)
   (cons (regexp-opt '(@"operator"@) 'symbols) 'font-lock-builtin-face)
   (cons "\\_<[0-9][A-Za-z0-9]*\\_>" 'font-lock-constant-face)
   (cons "\\$" 'font-lock-builtin-face)))

(defvar z80dev-mode-syntax-table
  (let ((table (make-syntax-table)))
    (modify-syntax-entry ?\; "<" table)
    (modify-syntax-entry ?\n ">" table)
    (modify-syntax-entry ?\' "\"" table)
    (modify-syntax-entry ?\" "\"" table)
    (modify-syntax-entry ?\\ "." table)
    (dolist (mark '(?_ ?? ?@ ?.))
      (modify-syntax-entry mark "_" table))
    (dolist (mark '(?$ ?+ ?- ?* ?/ ?,))
      (modify-syntax-entry mark "." table))
    table))

(defun z80dev-propertize (start end)
  "Mark the quotes between START and END that begin no string.
These are that of AF\\=', and one that its line does not close."
  (goto-char start)
  (beginning-of-line)
  (let ((case-fold-search t))
    (while (< (point) end)
      (let ((eol (line-end-position)))
        (while (re-search-forward "[;'\"]" eol t)
          (let ((at (1- (point))) (mark (char-before)))
            (cond
             ((eq mark ?\;) (goto-char eol))
             ((and (not (and (eq mark ?\')
                             (save-excursion (goto-char at) (looking-back "\\_<af" (line-beginning-position)))))
                   (search-forward (string mark) eol t)))
             (t (put-text-property at (1+ at) 'syntax-table (string-to-syntax ".")))))))
      (forward-line 1)
      (when (eobp) (goto-char (max end (point)))))))

;;;###autoload
(define-derived-mode z80dev-mode prog-mode "Z80"
  "Major mode for sources of z80dev."
  (setq-local comment-start ";")
  (setq-local comment-start-skip ";+[ \t]*")
  (setq-local indent-tabs-mode t)
  (setq-local syntax-propertize-function #'z80dev-propertize)
  (setq font-lock-defaults '(z80dev-font-lock-keywords nil t)))

;;;###autoload
(add-to-list 'auto-mode-alist '("\\.\\(?:asm\\|ASM\\|mac\\|MAC\\|z80\\|Z80\\)\\'" . z80dev-mode))

(provide 'z80dev)
;;; z80dev.el ends here
