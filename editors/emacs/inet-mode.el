;;; inet-mode.el --- Programs of interaction nets  -*- lexical-binding: t; -*-

;; Colours and comments, and the language server for Eglot.

;;; Code:

(defvar inet-mode-syntax-table
  (let ((table (make-syntax-table)))
    (modify-syntax-entry ?# "<" table)
    (modify-syntax-entry ?\n ">" table)
    (modify-syntax-entry ?_ "w" table)
    (dolist (sign '(?+ ?- ?~ ?< ?>) table)
      (modify-syntax-entry sign "." table))))

(defvar inet-mode-font-lock-keywords
  '(("\\_<\\(?:type\\|symbol\\|rule\\|net\\)\\_>" . font-lock-keyword-face)
    ("\\_<\\(with\\)\\_>[ \t\n]*{" 1 font-lock-keyword-face)
    ("\\_<symbol[ \t\n]+\\(\\sw+\\)" 1 font-lock-function-name-face)
    ("\\(\\sw+\\)[ \t\n]*[([]" 1 font-lock-function-name-face)
    ("\\(\\sw+\\)[ \t\n]*[-+]" 1 font-lock-type-face)))

;;;###autoload
(define-derived-mode inet-mode prog-mode "inet"
  "Programs of interaction nets."
  (setq-local comment-start "# "
              comment-start-skip "#+[ \t]*"
              tab-width 4
              indent-tabs-mode nil
              indent-line-function #'indent-relative
              font-lock-defaults '(inet-mode-font-lock-keywords)))

;;;###autoload
(add-to-list 'auto-mode-alist '("\\.inet\\'" . inet-mode))

(defconst inet-server
  (expand-file-name "../server/main.py" (file-name-directory (file-truename (or load-file-name buffer-file-name))))
  "The language server.")

(defvar eglot-server-programs)
(with-eval-after-load 'eglot
  (add-to-list 'eglot-server-programs `(inet-mode . ("python3" ,inet-server))))

(provide 'inet-mode)
;;; inet-mode.el ends here
