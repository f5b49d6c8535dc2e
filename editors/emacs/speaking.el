;;; speaking.el --- A server that speaks, in eglot  -*- lexical-binding: t; -*-

;; Starts `example_toml' as eglot does, opens a text, and looks at what the server says of it: diagnostics follow the
;; text and the configuration, a hover is answered, and a request that takes long is cancelled.
;;   LSP_SERVER="program argument .." emacs --batch -l editors/emacs/speaking.el
;; Without LSP_SERVER it is `crates/example_toml/out/example_toml'. Ends in status 1 where it is otherwise.

(require 'eglot)

(defvar command
  (let ((words (split-string (or (getenv "LSP_SERVER") "crates/example_toml/out/example_toml"))))
    (cons (expand-file-name (car words)) (cdr words))))
(defvar patience 60)
(defvar good t)

(defun note (what holds)
  (setq good (and good holds))
  (princ (format "%s: %s\n" what (if holds "yes" "NO"))))

(defun await (holds)
  "Whether HOLDS gives something before the patience ends."
  (let ((end (+ (float-time) patience)) found)
    (while (and (not (setq found (funcall holds))) (< (float-time) end))
      (accept-process-output nil 0.02))
    found))

(defun wait-for (what holds)
  (note what (await holds)))

(defun shown ()
  "The diagnostics that are shown: the line, the column and the type of each."
  (mapcar (lambda (mark)
            (save-excursion
              (goto-char (flymake-diagnostic-beg mark))
              (list (line-number-at-pos) (- (point) (line-beginning-position)) (flymake-diagnostic-type mark))))
          (sort (flymake-diagnostics)
                (lambda (a b) (< (flymake-diagnostic-beg a) (flymake-diagnostic-beg b))))))

(defun replace-text (old new)
  "Put NEW in the place of OLD, and have eglot tell the server as it does when the user pauses."
  (goto-char (point-min))
  (search-forward old)
  (replace-match new t t)
  (eglot--signal-textDocument/didChange))

(defun configure (server version)
  "Set the VERSION of TOML, and have eglot tell SERVER as it does when the user asks for that."
  (setq-default eglot-workspace-configuration `((:toml . (:version ,version))))
  (eglot-signal-didChangeConfiguration server))

(add-to-list 'eglot-server-programs (cons '(conf-toml-mode :language-id "toml") command))
(setq-default eglot-workspace-configuration '((:toml . (:version "1.0"))))
(setq eglot-sync-connect t)

(let* ((folder (make-temp-file "toml" t))
       (file (expand-file-name "prices.toml" folder)))
  (write-region "apple = 3\n\"größe\" = { apple = 3, }\n\"𝒙\" = pear\n" nil file nil 'quiet)
  (switch-to-buffer (find-file-noselect file))
  (apply #'eglot (eglot--guess-contact))
  (flymake-start)

  (let ((server (eglot-current-server)) (shows nil) (outcome nil)
        (comma '(2 21 eglot-warning)) (value '(3 6 eglot-error)))
    (wait-for "a value that is none and a comma that TOML 1.0 does not allow are marked"
              (lambda () (equal (shown) (list comma value))))
    (configure server "1.1")
    (wait-for "the setting allows the comma" (lambda () (equal (shown) (list value))))
    (configure server "1.0")
    (wait-for "and takes that back" (lambda () (equal (shown) (list comma value))))
    (replace-text "3, }" "3 }")
    (wait-for "a comma that was deleted is marked no more" (lambda () (equal (shown) (list value))))
    (replace-text "pear" "1")
    (wait-for "nothing is marked in a text that is right" (lambda () (null (shown))))

    (goto-char (point-min))
    (search-forward "{ ap")
    (eglot-hover-eldoc-function (lambda (info &rest _) (setq shows info)))
    (wait-for "a hover tells the full key and its type"
              (lambda () (and shows (string= (string-trim shows) "\"größe\".apple: integer"))))

    (jsonrpc-notify server :textDocument/didOpen
                    (list :textDocument (list :uri "file:///long.toml" :languageId "toml" :version 1
                                              :text (mapconcat (lambda (number) (format "key_%d = 1\n" number))
                                                               (number-sequence 1 20000) ""))))
    (let ((id (car (jsonrpc--async-request-1 server :workspace/symbol '(:query "key_")
                                             :success-fn (lambda (_) (setq outcome 'answered))
                                             :error-fn (lambda (fault) (setq outcome (plist-get fault :code)))
                                             :timeout patience))))
      (jsonrpc-notify server :$/cancelRequest (list :id id))
      ;; Without one of these arguments a pool searches, and a search can be cancelled. With them it may be answered first.
      (if (or (member "inline" command) (member "threads" command))
          (wait-for "a long request is cancelled or answered" (lambda () (memql outcome '(answered -32800))))
        (wait-for "a long request is cancelled" (lambda () (eql outcome -32800))))
      (note "another is answered" (= 2 (length (jsonrpc-request server :workspace/symbol '(:query "größe"))))))

    ;; `eglot-shutdown' does this as well, and kills the program at once.
    (let ((process (jsonrpc--process server)))
      (setf (eglot--shutdown-requested server) t)
      (jsonrpc-request server :shutdown nil)
      (jsonrpc-notify server :exit nil)
      (await (lambda () (not (process-live-p process))))
      (setq good (and good (eq (process-status process) 'exit) (= (process-exit-status process) 0)))
      (princ (format "ended with status %d\n" (process-exit-status process)))))
  (delete-directory folder t))

(princ (if good "as it should be\n" "NOT as it should be\n"))
(kill-emacs (if good 0 1))
;;; speaking.el ends here
