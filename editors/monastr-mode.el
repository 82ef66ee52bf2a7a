;;; monastr-mode.el --- Editing sources of monastr  -*- lexical-binding: t; -*-

;;; Commentary:

;; (load "CLONE/editors/monastr-mode") gives files *.mona this mode. C-c C-c decides the file by the commands of that clone;
;; a refusal is shown with its line and column, and C-x ` goes there.

;;; Code:

(require 'compile)

(defconst monastr-top
  (file-name-directory
   (directory-file-name (file-name-directory (file-truename (or load-file-name buffer-file-name)))))
  "The folder of the clone that this file lies in.")

(defvar monastr-mode-syntax-table
  (let ((table (make-syntax-table)))
    (modify-syntax-entry ?# "< b" table)
    (modify-syntax-entry ?\n "> b" table)
    (modify-syntax-entry ?/ ". 14" table)
    (modify-syntax-entry ?* ". 23" table)
    (modify-syntax-entry ?_ "w" table)
    (modify-syntax-entry ?' "w" table)
    (modify-syntax-entry ?\\ "." table)
    (modify-syntax-entry ?$ "." table)
    (modify-syntax-entry ?\" "\"" table)
    table)
  "Letters, comments and texts of the language of monastr.")

(defvar monastr-font-lock-keywords
  (list
   (cons (regexp-opt '("ws1s" "var0" "var1" "var2" "const" "pred" "macro" "include" "defaultwhere1" "defaultwhere2" "where"
                       "restrict" "import" "export" "ex0" "ex1" "ex2" "all0" "all1" "all2" "let0" "let1" "let2") 'words)
         'font-lock-keyword-face)
   (cons (regexp-opt '("in" "notin" "sub" "empty" "min" "max" "union" "inter" "pconst") 'words) 'font-lock-builtin-face)
   (cons (regexp-opt '("true" "false") 'words) 'font-lock-constant-face)
   (cons (regexp-opt '("ws2s" "tree" "guide" "universe" "type" "assert" "verify" "execute" "prefix" "allpos" "lastpos") 'words)
         'font-lock-warning-face)
   '("\\<\\(m2l-str\\)[ \t]*;" 1 font-lock-keyword-face)
   '("\\<\\(goal\\)[ \t]*\"" 1 font-lock-keyword-face))
  "Words of the language of monastr, as docs/LANGUAGE.md, \"Tokens\", has them.")

(defun monastr-decide ()
  "Decide this file, and show the report or where it is refused."
  (interactive)
  (compile (format "%s %s decide %s"
                   (shell-quote-argument (expand-file-name "examples/places" monastr-top))
                   (shell-quote-argument (expand-file-name "monastr" monastr-top))
                   (shell-quote-argument (file-name-nondirectory buffer-file-name)))))

(defvar monastr-mode-map
  (let ((map (make-sparse-keymap)))
    (define-key map (kbd "C-c C-c") #'monastr-decide)
    map)
  "Keys of `monastr-mode'.")

;;;###autoload
(define-derived-mode monastr-mode prog-mode "monastr"
  "Mode for sources of monastr."
  (setq-local comment-start "# ")
  (setq-local comment-start-skip "\\(?:#+\\|/\\*+\\)[ \t]*")
  (setq-local font-lock-defaults '(monastr-font-lock-keywords)))

;;;###autoload
(add-to-list 'auto-mode-alist '("\\.mona\\'" . monastr-mode))

(provide 'monastr-mode)
;;; monastr-mode.el ends here
