;;; odd.el --- Texts where eglot parts with LSP 3.17  -*- lexical-binding: t; -*-

;; A buffer that is narrowed is edited and saved, and one has carriage returns within its lines. After each edit the text of
;; `example_toml' has to be the buffer's, or the server tells that it may not be, at the latest at a save.
;;   LSP_SERVER="program argument .." emacs --batch -l editors/emacs/odd.el
;; Without LSP_SERVER it is `crates/example_toml/out/example_toml'. Ends in status 1 where a text differs and nothing was told.

(require 'eglot)

(defvar command
  (let ((words (split-string (or (getenv "LSP_SERVER") "crates/example_toml/out/example_toml"))))
    (cons (expand-file-name (car words)) (cdr words))))
(defvar good t)
(defvar told nil "What the server had the client log.")

(cl-defmethod eglot-handle-notification :before (_server (_method (eql window/logMessage)) &key message &allow-other-keys)
  (push message told))

(defun whole ()
  (save-restriction (widen) (buffer-substring-no-properties (point-min) (point-max))))

(defun held ()
  (eglot--signal-textDocument/didChange)
  (jsonrpc-request (eglot-current-server) :toml/text (list :textDocument (eglot--TextDocumentIdentifier)) :timeout 20))

(defun note (what holds)
  (setq good (and good holds))
  (princ (format "%s: %s\n" what (if holds "yes" "NO"))))

(defun says (words)
  (seq-some (lambda (message) (string-search words message)) told))

(add-to-list 'eglot-server-programs (cons '(conf-toml-mode :language-id "toml") command))
(prefer-coding-system 'utf-8-unix)
(setq eglot-sync-connect t eglot-send-changes-idle-time 1000 make-backup-files nil create-lockfiles nil auto-save-default nil)

(defun visit (name text)
  (let ((coding-system-for-write 'utf-8-unix)) (write-region text nil name nil 'quiet))
  (let ((coding-system-for-read 'utf-8-unix)) (find-file name)))

(let ((folder (make-temp-file "toml" t)))
  (visit (expand-file-name "narrow.toml" folder) "apple = 3\n\"größe\" = \"apple\"\n\"𝒙\" = 1\n# 😀\n")
  (apply #'eglot (eglot--guess-contact))
  (goto-char (point-min))
  (forward-line 1)
  (narrow-to-region (point) (line-end-position))
  (insert "ö")
  (note "the whole text is held while the buffer is narrowed" (equal (held) (whole)))
  (let ((inhibit-message t)) (save-buffer))
  (note "and once it is saved so" (equal (held) (whole)))
  (princ (format "told of the save: %s\n" (if (says "another one") "it is another text" "nothing")))
  (goto-char (point-max))
  (insert "ü😀")
  (note "an edit behind that" (equal (held) (whole)))
  (widen)

  (setq told nil)
  (visit (expand-file-name "returns.toml" folder) "apple = 3\rpear = 4\n\"größe\" = \"apple\"\n\"𝒙\" = 1\n")
  (let ((server (eglot-current-server)) (edits 0) (same t))
    (unless server (eglot--maybe-activate-editing-mode))
    (while (and same (< edits 40))
      (setq edits (1+ edits))
      (goto-char (1+ (% (* edits 37) (point-max))))
      (insert (nth (% edits 4) '("a" "𝒙" "\r" "\n")))
      (setq same (equal (held) (whole))))
    (if same
        (princ "carriage returns within lines: the text was held after 40 edits\n")
      ;; A place that stands in another line, and not past its end, is not known to be wrong before the text comes whole.
      (let ((inhibit-message t)) (save-buffer))
      (held)
      (note (format "carriage returns within lines: the texts part at edit %d, and the server said so %s" edits
                    (if (says "past the end") "then" "at a save"))
            (or (says "past the end") (says "another one")))))
  (let ((server (eglot-current-server))) (eglot-shutdown server)))
(princ (if good "as it should be\n" "NOT as it should be\n"))
(kill-emacs (if good 0 1))
