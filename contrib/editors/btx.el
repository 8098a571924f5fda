;;; btx.el --- the language server of BibTeX, proved, for eglot -*- lexical-binding: t -*-

;; (load "/path/of/btx.el") in your init file; Emacs 29 has eglot, and for Emacs 26.3 to 28 it is a package of GNU ELPA.
;; Styles get a mode of their own, `btx-style-mode'; databases keep `bibtex-mode'. Citations in documents aren't served here: eglot has one server for a buffer, and
;; `latex-mode' has others.

(require 'eglot)

(defvar btx-command '("env" "PYTHONSAFEPATH=1" "python3" "-m" "btx" "lsp")
  "What starts the server. PYTHONSAFEPATH keeps Python from importing what is in the folder of a stranger.")

(defvar btx-style-syntax
  (let ((table (make-syntax-table)))
    (modify-syntax-entry ?% "<" table)
    (modify-syntax-entry ?\n ">" table)
    (modify-syntax-entry ?\" "\"" table)
    (modify-syntax-entry ?{ "(}" table)
    (modify-syntax-entry ?} "){" table)
    (modify-syntax-entry ?\\ "." table)
    (modify-syntax-entry ?' "'" table)
    (dolist (sign '(?. ?$ ?: ?= ?+ ?- ?*))
      (modify-syntax-entry sign "_" table))
    table)
  "The syntax of styles of BibTeX.")

(define-derived-mode btx-style-mode prog-mode "BibTeX-style"
  "A mode for styles of BibTeX."
  :syntax-table btx-style-syntax
  (setq-local comment-start "% ")
  (setq font-lock-defaults
        '((("\\_<\\(ENTRY\\|EXECUTE\\|FUNCTION\\|INTEGERS\\|ITERATE\\|MACRO\\|READ\\|REVERSE\\|SORT\\|STRINGS\\)\\_>" . font-lock-keyword-face)
           ("\\_<[a-z.]+\\$\\_>" . font-lock-builtin-face))
          nil t)))

(add-to-list 'auto-mode-alist '("\\.bst\\'" . btx-style-mode))
(add-to-list 'eglot-server-programs (cons '(btx-style-mode bibtex-mode) btx-command))
(add-hook 'btx-style-mode-hook #'eglot-ensure)
(add-hook 'bibtex-mode-hook #'eglot-ensure)

(provide 'btx)
;;; btx.el ends here
