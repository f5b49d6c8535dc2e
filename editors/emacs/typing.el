;;; typing.el --- Edits in eglot, compared with the server's text  -*- lexical-binding: t; -*-

;; Types, pastes, undoes and replaces in Emacs, in a text with emoji and combining marks, and looks after each edit whether
;; `example_toml' holds the text of the buffer.
;;   LSP_SERVER="program argument .." emacs --batch -l editors/emacs/typing.el
;; Without LSP_SERVER it is `crates/example_toml/out/example_toml'; SEED and EDITS are 1 and 300. Ends in status 1 where
;; a text differs.

(require 'eglot)

(defvar command
  (let ((words (split-string (or (getenv "LSP_SERVER") "crates/example_toml/out/example_toml"))))
    (cons (expand-file-name (car words)) (cdr words))))
(defvar edits (string-to-number (or (getenv "EDITS") "300")))
(defvar pieces '("a" "word " "= 1" "ß" "Ä" "é" "é" "漢字" "𝒙" "😀" "👨‍👩‍👧" "🇪🇺" "\n" "\n" "\u2028" "\t"))

(defun any (list) (nth (random (length list)) list))

(defun some-text ()
  (mapconcat (lambda (_) (any pieces)) (number-sequence 1 (1+ (random 5))) ""))

(defun go-anywhere () (goto-char (+ (point-min) (random (1+ (- (point-max) (point-min)))))))

(defun some-end () (min (point-max) (+ (point) (random 12))))

(defvar ways
  (list
   (cons 'typed (lambda () (dolist (letter (string-to-list (some-text))) (insert letter))))
   (cons 'pasted (lambda () (kill-new (some-text)) (yank)))
   (cons 'deleted (lambda () (delete-region (point) (some-end))))
   (cons 'erased (lambda () (unless (bobp) (delete-char -1))))
   (cons 'killed (lambda () (kill-line) (yank) (kill-line)))
   (cons 'replaced (lambda ()
                     (let ((old (any '("a" "😀" "é" "\n\n"))) (new (some-text)) (left 3))
                       (goto-char (point-min))
                       (while (and (> left 0) (search-forward old nil t))
                         (setq left (1- left))
                         (replace-match new t t)))))
   (cons 'transposed (lambda () (transpose-words 1)))
   ;; Not `upcase-region': where it makes two letters of one, eglot 1.9 tells the server another range than the one that changed.
   (cons 'lowercase (lambda () (downcase-region (point) (some-end))))
   (cons 'undone (lambda () (setq pending-undo-list buffer-undo-list) (undo-more 1)))))

(defun edit-once ()
  (let ((way (any ways)))
    (undo-boundary)
    (go-anywhere)
    (ignore-errors (funcall (cdr way)))
    (car way)))

(add-to-list 'eglot-server-programs (cons '(conf-toml-mode :language-id "toml") command))
(setq eglot-sync-connect t)
(setq eglot-send-changes-idle-time 0)
(random (or (getenv "SEED") "1"))

(let* ((folder (make-temp-file "toml" t))
       (file (expand-file-name "prices.toml" folder))
       (coding-system-for-read 'utf-8-dos)
       (coding-system-for-write 'utf-8-dos)
       (right 0) (good t))
  (write-region "apple = 3\n\"größe\" = { apple = 30 }\n\"𝒙\" = \"größe\"\n# 👨‍👩‍👧 é\n" nil file nil 'quiet)
  (switch-to-buffer (find-file-noselect file))
  (buffer-enable-undo)
  (conf-toml-mode)
  (apply #'eglot (eglot--guess-contact))
  (let ((server (eglot-current-server)) (turn 0))
    (while (and good (< turn edits))
      (setq turn (1+ turn))
      (let ((way (edit-once)))
        (eglot--signal-textDocument/didChange)
        (let ((held (jsonrpc-request server :toml/text (list :textDocument (eglot--TextDocumentIdentifier)))))
          (if (string= held (buffer-substring-no-properties (point-min) (point-max)))
              (setq right (1+ right))
            (setq good nil)
            (princ (format "after edit %d (%s) the buffer has\n  %S\nand the server\n  %S\n" turn way (buffer-string) held))))))
    (princ (format "the server held the text of the buffer after %d of %d edits, %d characters at the end\n" right edits (buffer-size)))
    (jsonrpc-request server :shutdown nil)
    (jsonrpc-notify server :exit nil))
  (set-buffer-modified-p nil)
  (delete-directory folder t)
  (princ (if good "as it should be\n" "NOT as it should be\n"))
  (kill-emacs (if good 0 1)))
;;; typing.el ends here
