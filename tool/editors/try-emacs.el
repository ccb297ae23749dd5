;; What a writer does in Emacs, and what is seen then. Written to standard output.

(defun say (form &rest values)
  (princ (apply #'format (concat form "\n") values)))

(defun wait (what is-so)
  "Wait until something is so."
  (with-timeout (30 (error "failed: %s" what))
    (while (not (funcall is-so))
      (accept-process-output nil 0.05))))

(defun show-diagnostics ()
  (say "%d diagnostics" (length (flymake-diagnostics)))
  (dolist (one (flymake-diagnostics))
    (say "%d: %s" (line-number-at-pos (flymake-diagnostic-beg one)) (flymake-diagnostic-text one))))

(setq eglot-sync-connect 30)
(find-file "second_club.c")
;; What the hook has put off until the next command.
(run-hooks 'post-command-hook)
(wait "no server" (lambda () (eglot-current-server)))
(flymake-mode 1)
(wait "no diagnostics came" #'flymake-diagnostics)
(say ";; second_club.c is opened")
(show-diagnostics)
(say ";; the quick fix on line 8")
(goto-char (flymake-diagnostic-beg (car (flymake-diagnostics))))
(mapc (lambda (action) (say "menu: %s" (plist-get action :title)))
      (eglot-code-actions (point) (point) "quickfix"))
;; The writer takes the first fix of the menu.
(cl-letf (((symbol-function 'completing-read) (lambda (_ menu &rest _) (caar menu))))
  (eglot-code-actions (point) (point) "quickfix" t))
(eglot--signal-textDocument/didChange)
(wait "the diagnostics stay" (lambda () (not (flymake-diagnostics))))
(princ (buffer-string))
(show-diagnostics)
(eglot-shutdown (eglot-current-server))
