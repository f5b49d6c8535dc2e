;;; quick.el --- A session that ends as soon as it began, in eglot  -*- lexical-binding: t; -*-

;; Starts a server in a file, and stops it at once: its request for the configuration and `shutdown' cross. Eglot must meet no error.
;;   LSP_SERVER="program argument .." emacs --batch -l editors/emacs/quick.el
;; Without LSP_SERVER it is `crates/example_toml/out/example_toml'. Ends in status 1 at an error.

(require 'eglot)

(defvar command
  (let ((words (split-string (or (getenv "LSP_SERVER") "crates/example_toml/out/example_toml"))))
    (cons (expand-file-name (car words)) (cdr words))))
(add-to-list 'eglot-server-programs (cons '(conf-toml-mode :language-id "toml") command))
(setq-default eglot-workspace-configuration '((:toml . (:version "1.1"))))
(setq eglot-sync-connect t create-lockfiles nil)

(let ((folder (make-temp-file "toml" t)) (good t))
  (write-region "# one\na = 1\n" nil (expand-file-name "a.toml" folder) nil 'quiet)
  (find-file (expand-file-name "a.toml" folder))
  (dotimes (_ 5)
    (condition-case fault
        (progn (apply #'eglot (eglot--guess-contact))
               (eglot-shutdown (eglot-current-server)))
      (error (setq good nil)
             (princ (format "%S\n" fault)))))
  (princ (if good "as it should be\n" "NOT as it should be\n"))
  (kill-emacs (if good 0 1)))
