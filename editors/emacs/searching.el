;;; searching.el --- A server whose searches are jobs, in eglot  -*- lexical-binding: t; -*-

;; Starts `example_toml' as eglot does, opens texts, and searches all of them: a hover is answered while a search runs, an
;; edit reaches the server, notices of progress come, a search is answered once, and one that is cancelled ends.
;;   LSP_SERVER="program argument .." emacs --batch -l editors/emacs/searching.el
;; Without LSP_SERVER it is `crates/example_toml/out/example_toml'. Ends in status 1 where it is otherwise.

(require 'eglot)

(defvar command
  (let ((words (split-string (or (getenv "LSP_SERVER") "crates/example_toml/out/example_toml"))))
    (cons (expand-file-name (car words)) (cdr words))))
(defvar patience 60)
(defvar documents 20)
(defvar keys 1000)
(defvar good t)

(defun note (what holds)
  (setq good (and good holds))
  (princ (format "%s: %s\n" what (if holds "yes" "NO"))))

(defun await (holds)
  "Whether HOLDS gives something before the patience ends."
  (let ((end (+ (float-time) patience)) found)
    (while (and (not (setq found (funcall holds))) (< (float-time) end))
      (accept-process-output nil 0.02))
    found))

(defun wait-for (what holds)
  (note what (await holds)))

(defun replace-text (old new)
  "Put NEW in the place of OLD, and have eglot tell the server as it does when the user pauses."
  (goto-char (point-min))
  (search-forward old)
  (replace-match new t t)
  (eglot--signal-textDocument/didChange))

(defvar replies nil "The ids of the replies that came, the last first.")
(advice-add 'jsonrpc-connection-receive :before
            (lambda (_ message)
              (unless (plist-get message :method) (push (plist-get message :id) replies))))

(defun times (id)
  "How many replies came to the request with this ID."
  (cl-count id replies))

;; Eglot 1.9 shows no progress.
(defvar notices nil "The token, the kind and the text of each notice of progress, the last first.")
(cl-defmethod eglot-handle-notification (_server (_method (eql $/progress)) &key token value)
  (push (list token (plist-get value :kind) (or (plist-get value :title) (plist-get value :message))) notices))

(defun ask (server method params)
  "Ask SERVER for METHOD with PARAMS. The result is a list of the id and the outcome, which is nil as long as none came."
  (let* ((asked (list nil nil))
         (sent (jsonrpc--async-request-1 server method params
                                         :success-fn (lambda (result) (setcar (cdr asked) (list 'result result)))
                                         :error-fn (lambda (fault) (setcar (cdr asked) (list 'error (plist-get fault :code))))
                                         :timeout patience)))
    (setcar asked (car sent))
    asked))

(defun before (a b)
  "Whether the symbol A stands before B: in an earlier document, or on an earlier line."
  (if (string= (car a) (car b)) (< (cadr a) (cadr b)) (string< (car a) (car b))))

(defun found (outcome)
  "The document, the line and the name of each symbol of an OUTCOME, in order."
  (and (eq (car outcome) 'result)
       (sort (mapcar (lambda (symbol)
                       (let ((location (plist-get symbol :location)))
                         (list (plist-get location :uri)
                               (plist-get (plist-get (plist-get location :range) :start) :line)
                               (plist-get symbol :name))))
                     (cadr outcome))
             #'before)))

(defun hover (text)
  "A list that gets what eglot shows of TEXT."
  (let ((shows (list nil)))
    (goto-char (point-min))
    (search-forward text)
    (goto-char (match-beginning 0))
    (eglot-hover-eldoc-function (lambda (info &rest _) (setcar shows (and info (string-trim info)))))
    shows))

(add-to-list 'eglot-server-programs (cons '(conf-toml-mode :language-id "toml") command))
(setq eglot-sync-connect t)
(setq eglot-events-buffer-size 0)

(let* ((folder (make-temp-file "toml" t))
       (file (expand-file-name "one.toml" folder))
       (text (mapconcat (lambda (number) (format "one_%d = %d\nother_%d = \"😀\"\n" number number number))
                        (number-sequence 0 (1- keys)) ""))
       (expected nil) (uris nil))
  (write-region "\"größe of one\" = 1\ntwo = 2\nother = 0\n# one\nthree = 3 # one\n" nil file nil 'quiet)
  (switch-to-buffer (find-file-noselect file))
  (apply #'eglot (eglot--guess-contact))

  (let* ((server (eglot-current-server)) (buffer (plist-get (eglot--TextDocumentIdentifier) :uri)))
    (push buffer uris)
    (push (list buffer 0 "\"größe of one\"") expected)
    (dotimes (number documents)
      (let ((uri (format "file:///%d.toml" number)))
        (push uri uris)
        (dotimes (key keys) (push (list uri (* 2 key) (format "one_%d" key)) expected))
        (jsonrpc-notify server :textDocument/didOpen
                        (list :textDocument (list :uri uri :languageId "toml" :version 1 :text text)))))
    (setq expected (sort expected #'before))

    (let* ((search (ask server :workspace/symbol (list :query "one" :workDoneToken "first")))
           (first (hover "two")) second)
      (wait-for "a hover is answered" (lambda () (equal first '("two: integer"))))
      (note "the search still runs" (= (times (car search)) 0))
      (replace-text "two = 2" "two = 2.5")
      (replace-text "größe of one" "𝒙")
      (setq second (hover "two"))
      (wait-for "a hover after an edit tells the new type" (lambda () (equal second '("two: float"))))
      (note "the search still runs" (= (times (car search)) 0))
      (wait-for "it finds the keys of the texts as they were when it was asked for"
                (lambda () (and (cadr search) (equal (found (cadr search)) expected))))
      (let* ((told (reverse notices)) (between (butlast (cdr told))))
        (note "notices of progress came from its begin to its end"
              (and (equal (car told) '("first" "begin" "Searching"))
                   (equal (butlast (car (last told))) '("first" "end"))
                   between
                   (cl-every (lambda (notice) (and (equal (butlast notice) '("first" "report"))
                                                   (member (nth 2 notice) uris)))
                             between)
                   (= (length between) (length (delete-dups (mapcar #'cl-third between)))))))
      (setq notices nil)

      (let ((stopped (ask server :workspace/symbol (list :query "one" :workDoneToken "second"))))
        (wait-for "another has begun" (lambda () notices))
        (jsonrpc-notify server :$/cancelRequest (list :id (car stopped)))
        (wait-for "it was cancelled" (lambda () (equal (cadr stopped) '(error -32800))))

        (let ((third (ask server :workspace/symbol (list :query "𝒙"))))
          (wait-for "a search after that finds the key as it was edited"
                    (lambda () (equal (found (cadr third)) (list (list buffer 0 "\"𝒙\"")))))
          (note "each search has one reply"
                (equal (mapcar (lambda (asked) (times (car asked))) (list search stopped third)) '(1 1 1))))))

    ;; `eglot-shutdown' does this as well, and kills the program at once.
    (let ((process (jsonrpc--process server)))
      (setf (eglot--shutdown-requested server) t)
      (jsonrpc-request server :shutdown nil)
      (jsonrpc-notify server :exit nil)
      (await (lambda () (not (process-live-p process))))
      (setq good (and good (eq (process-status process) 'exit) (= (process-exit-status process) 0)))
      (princ (format "ended with status %d\n" (process-exit-status process)))))
  (set-buffer-modified-p nil)
  (delete-directory folder t))

(princ (if good "as it should be\n" "NOT as it should be\n"))
(kill-emacs (if good 0 1))
;;; searching.el ends here
