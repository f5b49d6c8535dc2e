;;; lsp_mode.el --- `example_toml' in lsp-mode  -*- lexical-binding: t; -*-

;; Starts the server as lsp-mode does: marks, a hover, edits, undos and a file that is read again. The server's text has to be the buffer's.
;;   LSP_SERVER="program argument .." emacs --batch -l editors/emacs/lsp_mode.el
;; Without LSP_SERVER it is `crates/example_toml/out/example_toml'. Ends in status 1 where it is otherwise.

(require 'package)
(package-initialize)
(let ((default-directory "/usr/share/emacs/site-lisp/elpa/"))
  (when (file-directory-p default-directory) (normal-top-level-add-subdirs-to-load-path)))
(require 'lsp-mode)

(defvar command
  (let ((words (split-string (or (getenv "LSP_SERVER") "crates/example_toml/out/example_toml"))))
    (cons (expand-file-name (car words)) (mapcar (lambda (word) (if (string-search "/" word) (expand-file-name word) word)) (cdr words)))))
(defvar folder (make-temp-file "toml" t))
(defvar good t)

(setq lsp-auto-guess-root t
      lsp-guess-root-without-session t
      lsp-session-file (expand-file-name "session" folder)
      lsp-enable-file-watchers nil
      lsp-restart 'ignore
      lsp-diagnostics-provider :none
      lsp-keep-workspace-alive nil
      lsp-headerline-breadcrumb-enable nil
      create-lockfiles nil)
(lsp-register-custom-settings '(("toml.version" "1.1")))
(lsp-register-client
 (make-lsp-client :new-connection (lsp-stdio-connection (lambda () command))
                  :activation-fn (lsp-activate-on "toml")
                  :server-id 'toml
                  :synchronize-sections '("toml")))

(defun note (what holds)
  (setq good (and good holds))
  (princ (format "%s: %s\n" what (if holds "yes" "NO"))))

(defun await (holds)
  (let ((end (+ (float-time) 10)))
    (while (and (not (funcall holds)) (< (float-time) end))
      (accept-process-output nil 0.05))
    (funcall holds)))

(defun is-held ()
  (equal (lsp-request "toml/text" (list :textDocument (lsp--text-document-identifier)))
         (buffer-substring-no-properties (point-min) (point-max))))

(defun marks ()
  (length (seq-uniq (gethash (lsp--fix-path-casing buffer-file-name) (lsp-diagnostics)))))

(let ((file (expand-file-name "p.toml" folder)) (right t))
  (write-region "a = 3\nb = { a = 30, }\n\"𝒙\" = pear\n" nil file nil 'quiet)
  (lsp-workspace-folders-add folder)
  (find-file file)
  (buffer-enable-undo)
  (lsp)
  (note "it begins" (await (lambda () (and (lsp-workspaces) (eq 'initialized (lsp--workspace-status (car (lsp-workspaces))))))))
  (note "one mark, since the settings allow the other" (await (lambda () (= 1 (marks)))))
  (goto-char (point-min))
  (forward-line 1)
  (note "a hover" (equal (lsp-get (lsp-get (lsp-request "textDocument/hover" (lsp--text-document-position-params)) :contents) :value) "b: inline table"))
  (dotimes (step 60)
    (undo-boundary)
    (goto-char (1+ (% (* step 37) (point-max))))
    (insert (nth (% step 5) '("a" "\"𝒙\" = 1\n" "é" "\n" "😀ß")))
    (unless (eobp) (delete-char 1))
    (setq right (and right (is-held))))
  (setq pending-undo-list buffer-undo-list)
  (dotimes (_ 20)
    (undo-more 1)
    (setq right (and right (is-held))))
  (note "the text after each of 60 edits and 20 undos" right)
  (set-buffer-modified-p nil)
  (revert-buffer t t)
  (unless lsp-mode (lsp))
  (insert "ü😀")
  (note "the text of a file that was read again, after an edit" (is-held))
  (set-buffer-modified-p nil)
  (lsp-workspace-shutdown (car (lsp-workspaces)))
  (accept-process-output nil 1))
(princ (if good "as it should be\n" "NOT as it should be\n"))
(kill-emacs (if good 0 1))
