;;; page.el --- The settings for Emacs that docs/EDITORS.md shows  -*- lexical-binding: t; -*-

;; The server is started in a file, and marks one fault. Without the settings it would mark two.
;;   LSP_SERVER="program argument .." emacs --batch -l editors/emacs/page.el
;; Ends in status 1 if no marks came. lsp_mode.el tries the lines for lsp-mode.

(defvar command
  (let ((words (split-string (or (getenv "LSP_SERVER") "crates/example_toml/out/example_toml"))))
    (cons (expand-file-name (car words)) (cdr words))))
(setq create-lockfiles nil)

(with-temp-buffer
  (insert-file-contents "docs/EDITORS.md")
  (re-search-forward "```elisp\n\\(\\(?:.*\n\\)*?\\)```")
  (let ((block (match-string 1)))
    (erase-buffer)
    (insert block)
    (goto-char (point-min))
    (search-forward "\"/path/to/example_toml\"")
    (replace-match (mapconcat #'prin1-to-string command " ") t t)
    (eval-buffer)))

(let* ((folder (make-temp-file "toml" t)) (file (expand-file-name "a.toml" folder)) (end (+ (float-time) 10)) (good nil))
  (write-region "a = { b = 1, }\nc = pear\n" nil file nil 'quiet)
  (setq eglot-sync-connect t)
  (find-file file)
  (apply #'eglot (eglot--guess-contact))
  (flymake-start)
  (while (and (not (setq good (= 1 (length (flymake-diagnostics))))) (< (float-time) end))
    (accept-process-output nil 0.02))
  (eglot-shutdown (eglot-current-server))
  (princ (if good "as it should be\n" "NOT as it should be\n"))
  (kill-emacs (if good 0 1)))
